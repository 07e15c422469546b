//! Walks through all states of a small logic, by the document's words on rows, states and runs, and
//! holds accepted lemmas and the findings, or that there are none, to them.

use bulanevior::{End, Finding};
use independent::lemma::{Goal, Lemma, Source};
use independent::program::{Action, Literals, Program};
use independent::words::MAX_ACTIONS;

/// What an enabled action does at a state.
struct Move {
    /// Predicates at the exact new values.
    predicates: u32,
    /// Variables below their low end, and above their high end.
    below: u32,
    above: u32,
    /// The number of the new state, if no variable is off its range.
    next: usize,
}

pub struct Walk {
    pub reachable: usize,
    /// Reachable states with a fault, each on the sheet.
    pub faults: usize,
    /// The fewest moves before one.
    pub nearest: Option<usize>,
    /// Accepted lemmas, each held to all states.
    pub lemmas: usize,
}

/// How many states the ranges have, if at most `most`.
pub fn count(program: &Program, most: usize) -> Option<usize> {
    let mut count = 1usize;
    for range in &program.ranges {
        count = count.checked_mul((range.high - range.low + 1) as usize)?;
        if count > most {
            return None;
        }
    }
    Some(count)
}

fn truths(program: &Program, state: &[i64]) -> u32 {
    let mut truths = 0;
    for (p, row) in program.predicates.iter().enumerate() {
        if value(row, state) >= 0 {
            truths |= 1 << p;
        }
    }
    truths
}

fn value(row: &independent::program::Row, state: &[i64]) -> i64 {
    row.constant + state.iter().zip(row.coefficients).map(|(x, c)| x * c).sum::<i64>()
}

fn meets(literals: &Literals, truths: u32) -> bool {
    literals.known_true & !truths == 0 && literals.known_false & truths == 0
}

/// What all states of the ranges are, and what each action does at each.
struct States {
    predicates: Vec<u32>,
    starts: Vec<bool>,
    /// At state s and action a: s * actions + a.
    moves: Vec<Option<Move>>,
}

/// What the action does at the state, where it is enabled.
fn moved(program: &Program, action: &Action, state: &[i64]) -> Option<Move> {
    if !action.guards.iter().all(|r| value(r, state) >= 0) {
        return None;
    }
    let mut new = state.to_vec();
    for assignment in &action.assignments {
        new[assignment.variable] = value(&assignment.row, state);
    }
    let mut it = Move { predicates: truths(program, &new), below: 0, above: 0, next: 0 };
    for (v, range) in program.ranges.iter().enumerate().rev() {
        it.below |= u32::from(new[v] < range.low) << v;
        it.above |= u32::from(new[v] > range.high) << v;
        if it.below | it.above == 0 {
            it.next = it.next * (range.high - range.low + 1) as usize + (new[v] - range.low) as usize;
        }
    }
    Some(it)
}

fn all(program: &Program, states: usize) -> States {
    let mut all = States { predicates: Vec::new(), starts: Vec::new(), moves: Vec::new() };
    let mut state: Vec<i64> = program.ranges.iter().map(|r| r.low).collect();
    for _ in 0..states {
        all.predicates.push(truths(program, &state));
        all.starts.push(program.start.iter().all(|r| value(r, &state) >= 0));
        all.moves.extend(program.actions.iter().map(|action| moved(program, action, &state)));
        for (v, range) in program.ranges.iter().enumerate() {
            if state[v] < range.high {
                state[v] += 1;
                break;
            }
            state[v] = range.low;
        }
    }
    all
}

/// The first state at which the lemma is false.
fn refuted(all: &States, actions: usize, lemma: &Lemma) -> Option<usize> {
    (0..all.starts.len()).find(|&s| {
        let start = Move { predicates: all.predicates[s], below: 0, above: 0, next: s };
        let after = match lemma.source {
            Source::Start => Some(&start).filter(|_| all.starts[s]),
            Source::Action(a) => all.moves[s * actions + a].as_ref(),
        };
        let Some(after) = after.filter(|_| meets(&lemma.premises, all.predicates[s])) else { return false };
        !match lemma.goal {
            Goal::Cannot => false,
            Goal::Holds(p) => after.predicates >> p & 1 == 1,
            Goal::Fails(p) => after.predicates >> p & 1 == 0,
            Goal::NotBelow(v) => after.below >> v & 1 == 0,
            Goal::NotAbove(v) => after.above >> v & 1 == 0,
        }
    })
}

/// What findings there are, at whatever node.
#[derive(Default)]
pub struct Sheet {
    /// Combinations, a bit each.
    combinations: u32,
    /// For each action the variables that may go below their low end, and above their high end.
    below: [u32; MAX_ACTIONS],
    above: [u32; MAX_ACTIONS],
}

impl Sheet {
    pub fn of(words: &[u32]) -> Sheet {
        let mut sheet = Sheet::default();
        for finding in words.iter().filter_map(|w| Finding::of(*w)) {
            match finding {
                Finding::MayForbid { combination, .. } => sheet.combinations |= 1 << combination,
                Finding::MayRunOff { action, variable, end: End::Low, .. } => sheet.below[action] |= 1 << variable,
                Finding::MayRunOff { action, variable, end: End::High, .. } => sheet.above[action] |= 1 << variable,
            }
        }
        sheet
    }
}

/// Every forbidden state that a run meets and every way in which one runs off is on the sheet, and not before the run has made as many moves
/// as the path has steps: hands back how many states runs reach, how many of them have such a fault, and the fewest moves before one.
fn reached(program: &Program, all: &States, sheet: &Sheet, steps: usize) -> Result<(usize, usize, Option<usize>), String> {
    let actions = program.actions.len();
    let (mut faults, mut nearest) = (0, None);
    let mut seen = all.starts.clone();
    let mut list: Vec<(usize, usize)> = (0..seen.len()).filter(|s| seen[*s]).map(|s| (s, 0)).collect();
    let mut at = 0;
    while at < list.len() {
        let (s, moves) = list[at];
        at += 1;
        let mut fault = false;
        for (b, _) in program.forbidden.iter().enumerate().filter(|(_, c)| meets(c, all.predicates[s])) {
            fault = true;
            if sheet.combinations >> b & 1 == 0 {
                return Err(format!("no finding says so, but the reachable state {s} meets combination {b}"));
            }
        }
        for (a, it) in all.moves[s * actions..(s + 1) * actions].iter().enumerate() {
            let Some(it) = it else { continue };
            if it.below & !sheet.below[a] != 0 || it.above & !sheet.above[a] != 0 {
                return Err(format!("no finding says so, but action {a} runs off at the reachable state {s}"));
            }
            if it.below | it.above != 0 {
                fault = true;
            } else if !seen[it.next] {
                seen[it.next] = true;
                list.push((it.next, moves + 1));
            }
        }
        if fault && moves < steps {
            return Err(format!("the path has {steps} steps, but the state {s} is at fault after {moves} moves"));
        }
        faults += usize::from(fault);
        nearest = nearest.or(fault.then_some(moves));
    }
    Ok((at, faults, nearest))
}

/// Holds each accepted lemma to all states of the ranges, and the findings to all runs. `accepted` are the lemmas that
/// the library accepts; `sheet` is what it finds, and its path has so many steps.
pub fn walk(program: &Program, states: usize, accepted: &[&Lemma], sheet: &Sheet, steps: usize) -> Result<Walk, String> {
    let all = all(program, states);
    for (number, lemma) in accepted.iter().enumerate() {
        if let Some(s) = refuted(&all, program.actions.len(), lemma) {
            return Err(format!("accepted lemma {number} of the accepted ones is false at state {s}: {lemma:?}"));
        }
    }
    let (reachable, faults, nearest) = reached(program, &all, sheet, steps)?;
    Ok(Walk { reachable, faults, nearest, lemmas: accepted.len() })
}
