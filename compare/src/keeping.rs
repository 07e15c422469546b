//! Request 1 in what the calls returned: what a graph list keeps, by the program's own rows and lemmas; and the same show
//! with nothing untouched.

use crate::calls::{falsehood, Compare, Difference};
use crate::generate::Input;
use crate::touch::{untouched, Graph};
use bulanevior::raw::{BnvJudge, BNV_JUDGE_REFUSED, BNV_SAFE};
use independent::lemma::{weigh, Goal, Lemma, Source};
use independent::program::{Action, Assignment, Literals, Program, Row};
use independent::shows::{act, itself, lemma, RowText, Text};
use independent::words::*;

/// What is counted of a show, once where it occurs in its graph.
pub const NAMES: [&str; 7] = [
    "kept true, no lemma",
    "kept false, no lemma",
    "kept, predicate without terms",
    "kept, action sets nothing",
    "kept against shown, no successor",
    "lost, variable set to itself",
    "lost, a part of its variables set",
];

/// Predicates by what an action does to their variables, a bit each.
#[derive(Default)]
struct Sorted {
    untouched: u32,
    no_terms: u32,
    /// Touched, and what is set of it is set to itself.
    to_itself: u32,
    /// Some of its variables are set and some are not.
    in_part: u32,
    nothing_set: bool,
}

/// It sets x to x.
fn to_itself(a: &Assignment) -> bool {
    a.row.constant == 0 && (0..MAX_VARIABLES).all(|v| a.row.coefficients[v] == i64::from(v == a.variable))
}

fn sorted(program: &Program, action: &Action) -> Sorted {
    let mut sorted = Sorted { nothing_set: action.assignments.is_empty(), ..Sorted::default() };
    for (p, row) in program.predicates.iter().enumerate() {
        let terms = row.coefficients.iter().filter(|c| **c != 0).count();
        let set: Vec<&Assignment> = action.assignments.iter().filter(|a| row.coefficients[a.variable] != 0).collect();
        for (mask, holds) in [
            (&mut sorted.untouched, untouched(action, row)),
            (&mut sorted.no_terms, terms == 0),
            (&mut sorted.to_itself, !set.is_empty() && set.iter().all(|a| to_itself(a))),
            (&mut sorted.in_part, !set.is_empty() && set.len() < terms),
        ] {
            *mask |= u32::from(holds) << p;
        }
    }
    sorted
}

/// The accepted lemmas of each action.
fn accepted<'a>(program: &Program, lemmas: &'a [Lemma]) -> Vec<Vec<&'a Lemma>> {
    let mut accepted = vec![Vec::new(); program.actions.len()];
    for lemma in lemmas {
        if let Source::Action(a) = lemma.source {
            if weigh(program, lemma) == Some(true) {
                accepted[a].push(lemma);
            }
        }
    }
    accepted
}

/// What an action's accepted lemmas show at a node: whether it cannot happen, and literals afterwards.
fn shown(accepted: &[&Lemma], node: &Literals) -> (bool, Literals) {
    let (mut cannot, mut literals) = (false, Literals::default());
    for lemma in accepted.iter().filter(|l| l.premises.within(node)) {
        match lemma.goal {
            Goal::Cannot => cannot = true,
            Goal::Holds(p) => literals.known_true |= 1 << p,
            Goal::Fails(p) => literals.known_false |= 1 << p,
            Goal::NotBelow(_) | Goal::NotAbove(_) => {}
        }
    }
    (cannot, literals)
}

/// The literals on these predicates.
fn on(predicates: u32, literals: &Literals) -> Literals {
    Literals { known_false: literals.known_false & predicates, known_true: literals.known_true & predicates }
}

fn without(literals: &Literals, others: &Literals) -> Literals {
    Literals {
        known_false: literals.known_false & !others.known_false,
        known_true: literals.known_true & !others.known_true,
    }
}

/// Which of NAMES an EDGE word shows: an action at a node, and the successor's literals. None if they lack one that is
/// kept.
fn edge(sorted: &Sorted, accepted: &[&Lemma], here: &Literals, next: Option<Literals>) -> Option<[bool; 7]> {
    let kept = on(sorted.untouched, here);
    let (cannot, shown) = shown(accepted, here);
    let Some(next) = next else {
        let against = !cannot && !shown.contradicts(&shown) && kept.contradicts(&shown);
        return Some([false, false, false, false, against, false, false]);
    };
    let (unshown, lost) = (without(&kept, &shown), without(here, &next));
    kept.within(&next).then_some([
        unshown.known_true != 0,
        unshown.known_false != 0,
        !sorted.nothing_set && !on(sorted.no_terms, &unshown).is_empty(),
        sorted.nothing_set && !unshown.is_empty(),
        false,
        !on(sorted.to_itself, &lost).is_empty(),
        !on(sorted.in_part, &lost).is_empty(),
    ])
}

/// Which of NAMES a graph list shows.
fn seen(program: &Program, lemmas: &[Lemma], graph: &Graph) -> Result<[bool; 7], String> {
    let accepted = accepted(program, lemmas);
    let sorted: Vec<Sorted> = program.actions.iter().map(|action| sorted(program, action)).collect();
    let mut seen = [false; 7];
    for node in 0..graph.nodes {
        let here = graph.literals(node);
        for action in 0..graph.actions {
            let next = graph.successor(node, action).map(|n| graph.literals(n));
            let Some(shows) = edge(&sorted[action], &accepted[action], &here, next) else {
                return Err(format!("action {action} at node {node}: the successor lacks a literal that is kept"));
            };
            seen.iter_mut().zip(shows).for_each(|(to, from)| *to |= from);
        }
    }
    Ok(seen)
}

fn text(row: &Row) -> RowText {
    let terms = (0..MAX_VARIABLES).filter(|v| row.coefficients[*v] != 0);
    (row.constant as i32, terms.map(|v| (v as u32, row.coefficients[v] as i32)).collect())
}

/// The same show with nothing untouched: one variable more, which can only be 0, is in every predicate, and each action
/// sets it to itself, with lemmas for its ends. None where a limit is in the way.
fn all_touched(program: &Program, lemmas: usize, input: &Input) -> Option<Input> {
    let more = program.ranges.len() as u32;
    if more as usize == MAX_VARIABLES || lemmas + 2 * program.actions.len() > MAX_LEMMAS {
        return None;
    }
    let rows = |rows: &[Row]| rows.iter().map(text).collect::<Vec<_>>();
    let mut t = Text {
        vars: program.ranges.iter().map(|r| (r.low as i32, r.high as i32)).chain([(0, 0)]).collect(),
        init: rows(&program.start),
        pred: rows(&program.predicates),
        bad: program.forbidden.iter().map(|c| (c.known_false, c.known_true)).collect(),
        actions: Vec::new(),
    };
    t.pred.iter_mut().for_each(|row| row.1.push((more, 1)));
    let mut list = input.lemmas.clone();
    for (a, action) in program.actions.iter().enumerate() {
        let sets = action.assignments.iter().map(|s| (s.variable as u32, text(&s.row))).chain([itself(more)]);
        t.actions.push(act(&rows(&action.guards), &sets.collect::<Vec<_>>()));
        let mut multipliers = vec![0; 1 + action.guards.len()];
        multipliers[0] = 1;
        list.extend([3, 4].into_iter().flat_map(|goal| lemma(a as u32, goal, more, 0, 0, &multipliers)));
    }
    Some(Input { program: t.words(), lemmas: list })
}

/// A show whose graph list was looked at.
pub struct Looked {
    program: Program,
    lemmas: usize,
    /// None for refusal 7.
    graph: Option<Vec<u32>>,
    seen: [bool; 7],
}

impl Looked {
    /// Something is kept that no lemma shows, or stands against what one shows.
    fn decides(&self) -> bool {
        self.seen[0] || self.seen[1] || self.seen[4]
    }
}

impl Compare {
    /// Looks at the graph list of the last judge. None if there was no graph, but for refusal 7.
    pub fn look(&mut self, input: &Input, judged: &BnvJudge) -> Result<Option<Looked>, Difference> {
        let refused = judged.verdict == BNV_JUDGE_REFUSED;
        if refused && judged.refusal != 7 {
            return Ok(None);
        }
        let program = independent::program::read(&input.program).expect("a judged program");
        let lemmas = independent::lemma::read(&program, &input.lemmas).expect("a judged lemma list");
        let (nodes, actions) = (judged.nodes, program.actions.len());
        let words = &self.graph()[..nodes * (HEADER + actions)];
        let seen = seen(&program, &lemmas, &Graph { words, nodes, actions });
        let graph = (!refused).then(|| words.to_vec());
        let seen = seen.map_err(|fault| falsehood(input, judged, &fault))?;
        for (name, _) in NAMES.iter().zip(seen).filter(|(_, seen)| *seen) {
            self.counts.note(name);
        }
        Ok(Some(Looked { program, lemmas: lemmas.len(), graph, seen }))
    }

    /// Holds what was seen to the same show with nothing untouched: that has another graph exactly where something kept
    /// decides, and is safe only where the show is. Says whether the show is safe by what is kept.
    pub fn touch_all(&mut self, input: &Input, judged: &BnvJudge, looked: &Looked) -> Result<bool, Difference> {
        let Some(other) = all_touched(&looked.program, looked.lemmas, input) else { return Ok(false) };
        let touched = self.judge_uncounted(&other, GRAPH_WORDS, PATH_WORDS, 0)?;
        let Some(graph) = &looked.graph else {
            if touched.verdict != BNV_JUDGE_REFUSED {
                self.counts.note("refusal 7 by what is kept");
            }
            return Ok(false);
        };
        let moved = touched.nodes != judged.nodes || self.graph()[..graph.len()] != graph[..];
        if moved != looked.decides() {
            let fault = format!("what is kept decides: {}, and with nothing untouched another graph: {moved}", !moved);
            return Err(falsehood(input, judged, &fault));
        }
        let (safe, other_verdict) = (judged.verdict == BNV_SAFE, touched.verdict != judged.verdict);
        if !safe && touched.verdict == BNV_SAFE {
            return Err(falsehood(input, judged, "a finding, and safe with nothing untouched"));
        }
        for (holds, name) in [
            (moved, "another graph by what is kept"),
            (other_verdict, "another verdict by what is kept"),
            (safe && other_verdict, "safe by what is kept"),
        ] {
            if holds {
                self.counts.note(name);
            }
        }
        Ok(safe && other_verdict)
    }
}
