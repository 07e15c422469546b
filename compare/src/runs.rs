//! Request 4 along lists of actions: the library's two steps, call by call, held to the independent code's runs and to each
//! other. After a safe verdict, from start states, nothing runs off and the rack's values are the exact ones.

use crate::calls::{differ, Compare, Difference};
use crate::dice::Dice;
use crate::generate::Input;
use crate::near;
use crate::rack::{exact, off, past, untrue, Call, RACK, STEP};
use crate::states;
use bulanevior::raw::{BnvJudge, BnvStep, BNV_MOVED, BNV_NOT_ENABLED, BNV_RUNS_OFF, BNV_SAFE, BNV_STEP_REFUSED};
use independent::program::Program;

/// The longest list of actions; from each start state of a safe logic it is at least LEAST, and from all together about ACTIONS.
const LONGEST: usize = 40;
const LEAST: usize = 3;
const ACTIONS: usize = 80;
/// States of the ranges that are all looked at for start states; tries and start states where there are more.
const STATES: usize = 2_000;
const TRIES: usize = 12;
const SOME: usize = 2;

/// What the library left, call by call, and the answer that was neither moved nor not enabled.
struct Driven {
    states: Vec<Vec<i32>>,
    /// For each action but that one.
    answers: Vec<BnvStep>,
    end: Option<BnvStep>,
}

/// A run of both kinds.
struct Run {
    exact: Driven,
    rack: Driven,
}

/// Actions by chance, now and then one over and over.
fn list(dice: &Dice, actions: usize, most: usize) -> Vec<usize> {
    let same = dice.below(actions);
    let often = dice.pick(&[0, 0, 0, 60, 100]);
    (0..dice.below(most + 1)).map(|_| if dice.percent(often) { same } else { dice.below(actions) }).collect()
}

/// A state between these ends, often at them.
fn between(dice: &Dice, ends: &[(i32, i32)]) -> Vec<i32> {
    let value = |(low, high): &(i32, i32)| match dice.below(4) {
        0 => *low,
        1 => *high,
        _ => dice.between(*low, *high),
    };
    ends.iter().map(value).collect()
}

fn starts_here(program: &Program, state: &[i32]) -> bool {
    program.start.iter().all(|row| exact(row, state) >= 0)
}

/// State s of the ranges.
fn numbered(ends: &[(i32, i32)], mut s: usize) -> Vec<i32> {
    let mut digit = |(low, high): &(i32, i32)| {
        let count = (high - low + 1) as usize;
        let value = low + (s % count) as i32;
        s /= count;
        value
    };
    ends.iter().map(&mut digit).collect()
}

/// The ranges, cut by the start rows on one variable; none where nothing is left of one.
fn narrowed(program: &Program, mut ends: Vec<(i32, i32)>) -> Option<Vec<(i32, i32)>> {
    for row in &program.start {
        let mut terms = (0..ends.len()).filter(|v| row.coefficients[*v] != 0);
        if let (Some(v), None) = (terms.next(), terms.next()) {
            // c * x + k >= 0.
            let (c, k) = (row.coefficients[v], row.constant);
            let (low, high) = &mut ends[v];
            if c > 0 {
                *low = (*low).max(-k.div_euclid(c) as i32);
            } else {
                *high = (*high).min(k.div_euclid(-c) as i32);
            }
        }
    }
    ends.iter().all(|(low, high)| low <= high).then_some(ends)
}

/// The start states, and whether they are all.
fn starts(program: &Program, ends: &[(i32, i32)], dice: &Dice) -> (Vec<Vec<i32>>, bool) {
    if let Some(count) = states::count(program, STATES) {
        return ((0..count).map(|s| numbered(ends, s)).filter(|state| starts_here(program, state)).collect(), true);
    }
    let Some(ends) = narrowed(program, ends.to_vec()) else { return (Vec::new(), false) };
    let tries = (0..TRIES).map(|_| between(dice, &ends));
    (tries.filter(|state| starts_here(program, state)).take(SOME).collect(), false)
}

impl Compare {
    fn drive(&mut self, call: &Call, input: &Input, actions: &[usize], state: &[i32]) -> Driven {
        let mut driven = Driven { states: vec![state.to_vec()], answers: Vec::new(), end: None };
        let mut now = state.to_vec();
        for k in actions {
            let answer = (call.library)(&input.program, *k, &mut now);
            self.calls += 1;
            if ![BNV_MOVED, BNV_NOT_ENABLED].contains(&answer.answer) {
                driven.end = Some(answer);
                break;
            }
            driven.answers.push(answer);
            driven.states.push(now.clone());
        }
        driven
    }

    /// Both kinds of run. The exact one ends where it runs off; the library refuses to go on from a state that the rack left
    /// off a range, where the independent run goes on.
    fn run(&mut self, input: &Input, program: &Program, actions: &[usize], state: &[i32]) -> Result<Run, Difference> {
        let name = |kind: &str| format!("{kind} run of {actions:?} from {state:?}");
        let exact = self.drive(&STEP, input, actions, state);
        let (states, ran_off) = independent::exact_run(program, actions, state);
        if exact.states != states || exact.end.map(|e| e.answer) != ran_off.then_some(BNV_RUNS_OFF) {
            return Err(differ(input, &name("exact"), &(exact.states, exact.end), &(states, ran_off)));
        }
        let rack = self.drive(&RACK, input, actions, state);
        let mut states = independent::rack_run(program, actions, state);
        let refused = states[..actions.len()].iter().position(|state| off(program, state).is_some());
        states.truncate(refused.map_or(states.len(), |at| at + 1));
        let end = refused.map(|at| (BNV_STEP_REFUSED, 10, off(program, &states[at])));
        if rack.states != states || rack.end.map(|e| (e.answer, e.refusal, Some(e.value))) != end {
            return Err(differ(input, &name("rack's"), &(rack.states, rack.end), &(states, end)));
        }
        self.same(&exact, &rack).map_err(|fault| untrue(input, &format!("{}: {fault}", name("the"))))?;
        for driven in [&exact, &rack] {
            self.near(program, actions, driven).map_err(|fault| untrue(input, &format!("{}: {fault}", name("the"))))?;
        }
        Ok(Run { exact, rack })
    }

    /// Each answer on the way says how near it was, and so does a run-off at its end.
    fn near(&mut self, program: &Program, actions: &[usize], driven: &Driven) -> Result<(), String> {
        let end = driven.end.iter().filter(|end| end.answer == BNV_RUNS_OFF);
        for ((k, state), answer) in actions.iter().zip(&driven.states).zip(driven.answers.iter().chain(end)) {
            near::held(program, *k, state, answer)?;
            if answer.answer == BNV_NOT_ENABLED {
                self.counts.note("runs, not enabled on the way");
            }
        }
        Ok(())
    }

    /// The rack's run has the exact run's states, and no others where that does not run off.
    fn same(&mut self, exact: &Driven, rack: &Driven) -> Result<(), String> {
        let states = exact.states.len();
        let begins = rack.states.starts_with(&exact.states) && rack.answers.starts_with(&exact.answers);
        if !begins || (exact.end.is_none() && rack.states.len() != states) {
            return Err(format!("exact {:?}, the rack {:?}", exact.states, rack.states));
        }
        if exact.end.is_none() {
            self.counts.note("runs, the rack as exact to the end");
        } else if rack.states.get(states).is_some_and(|state| *state != exact.states[states - 1]) {
            self.counts.note("runs that run off, the rack goes on elsewhere");
        }
        if rack.end.is_some() {
            self.counts.note("runs, the rack refused on its way");
        }
        Ok(())
    }

    /// Runs of one input.
    pub fn runs(&mut self, input: &Input, judged: Option<&BnvJudge>, dice: &Dice) -> Result<(), Difference> {
        let Ok(program) = independent::program::read(&input.program) else { return Ok(()) };
        if program.actions.is_empty() {
            return Ok(());
        }
        let ends: Vec<(i32, i32)> = program.ranges.iter().map(|r| (r.low as i32, r.high as i32)).collect();
        if dice.percent(40) {
            let actions = list(dice, program.actions.len(), LONGEST);
            self.run(input, &program, &actions, &between(dice, &ends))?;
        }
        if judged.is_some_and(|j| j.verdict == BNV_SAFE) {
            let (starts, all) = starts(&program, &ends, dice);
            if all && !starts.is_empty() {
                self.counts.note("safe, rack's runs from all start states");
            }
            for state in &starts {
                let actions = list(dice, program.actions.len(), (ACTIONS / starts.len()).clamp(LEAST, LONGEST));
                self.safe(input, &program, &actions, state)?;
            }
        }
        Ok(())
    }

    /// From a start state of a safe logic nothing runs off, and so the rack's values are the exact ones.
    fn safe(&mut self, input: &Input, program: &Program, actions: &[usize], state: &[i32]) -> Result<(), Difference> {
        let run = self.run(input, program, actions, state)?;
        if run.exact.end.is_some() || run.rack.end.is_some() || run.exact.states != run.rack.states {
            let ends = (run.exact.end, run.rack.end);
            return Err(untrue(input, &format!("safe, and the runs of {actions:?} from {state:?} end with {ends:?}")));
        }
        self.counts.note("safe, rack's runs");
        let tries = actions.iter().zip(&run.rack.states).zip(&run.rack.answers);
        for ((k, state), _) in tries.filter(|(_, answer)| answer.answer == BNV_MOVED) {
            self.counts.note("safe, rack's moves");
            if past(program, *k, state).contains(&true) {
                self.counts.note("safe, rack's moves past sixteen bits");
            }
        }
        Ok(())
    }
}
