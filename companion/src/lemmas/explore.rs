//! The abstract state graph, explored as the checker does, breadth-first, over anything that shows goals: the companion's own reading of
//! formula (3), by which lemmas are found and lists tried that the proved call does not take. What is said in the end the proved call says.
use crate::show::model::{Goal, Lemma, Literals, Logic, Source, PREDICATES};
use crate::show::rows::VARIABLES;
use bulanevior::MOST_ACTIONS;
use std::collections::{BTreeSet, HashSet};

/// What shows goals.
pub trait Shown {
    /// Are lemmas looked for? None is, then, for a predicate that is kept: it could only say the opposite, and then the source cannot happen.
    const SEEKS: bool;

    fn logic(&self) -> &Logic;

    /// Is a goal shown where these literals are known?
    fn shows(&mut self, source: Source, goal: Goal, known: Literals) -> bool;
}

/// How many sources and goals there are together, and the number of each.
pub const PLACES: usize = (MOST_ACTIONS + 1) * GOALS;
const GOALS: usize = 1 + 2 * PREDICATES + 2 * VARIABLES;

pub fn place(source: Source, goal: Goal) -> usize {
    let source = match source {
        Source::Start => 0,
        Source::Action(k) => 1 + k,
    };
    let goal = match goal {
        Goal::Never => 0,
        Goal::Holds(p) => 1 + p,
        Goal::Fails(p) => 1 + PREDICATES + p,
        Goal::Low(v) => 1 + 2 * PREDICATES + v,
        Goal::High(v) => 1 + 2 * PREDICATES + VARIABLES + v,
    };
    source * GOALS + goal
}

/// A list of lemmas, which shows what it shows.
pub struct Listed<'a> {
    logic: &'a Logic,
    /// Of each source and goal.
    premises: Vec<Vec<Literals>>,
}

impl<'a> Listed<'a> {
    pub fn new(logic: &'a Logic, lemmas: &[Lemma]) -> Listed<'a> {
        let mut premises = vec![Vec::new(); PLACES];
        for lemma in lemmas {
            premises[place(lemma.source, lemma.goal)].push(lemma.premises);
        }
        Listed { logic, premises }
    }
}

impl Shown for Listed<'_> {
    const SEEKS: bool = false;

    fn logic(&self) -> &Logic {
        self.logic
    }

    fn shows(&mut self, source: Source, goal: Goal, known: Literals) -> bool {
        let all = &self.premises[place(source, goal)];
        all.iter().any(|&premises| known.contains(premises))
    }
}

/// What may go wrong somewhere in a graph.
#[derive(Clone, Copy, Debug, PartialEq, Eq, PartialOrd, Ord)]
pub enum Fault {
    /// A forbidden combination that is contradicted before a source may be met behind it.
    Met(usize, Source),
    /// An action may pass an end: the goal that is not shown.
    Passed(usize, Goal),
}

/// What an exploration came to.
pub struct Explored {
    pub nodes: usize,
    pub faults: BTreeSet<Fault>,
    /// Was there a node too many? Then it was broken off.
    pub over: bool,
}

/// Has the predicate's row a coefficient on a variable that the source sets? Of the start nothing is known before.
pub fn touches(logic: &Logic, source: Source, predicate: usize) -> bool {
    let (_, sets) = logic.source(source);
    let row = &logic.predicates[predicate];
    sets.iter().any(|&(v, _)| row.coefficients[v] != 0)
}

/// Is something known of a predicate?
pub fn speaks(literals: Literals, predicate: usize) -> bool {
    (literals.holds | literals.fails) >> predicate & 1 == 1
}

/// What is known of a predicate behind a source at a node, of what is followed: that it holds, that it fails. Both, where there is no successor.
fn conjunct<S: Shown>(
    shown: &mut S,
    source: Source,
    node: Literals,
    followed: Literals,
    p: usize,
) -> (bool, bool) {
    let at = |literals: u32| literals >> p & 1 == 1;
    let kept = !touches(shown.logic(), source, p);
    let (holds, fails) = (kept && at(node.holds), kept && at(node.fails));
    if S::SEEKS && (holds || fails) {
        return (holds, fails);
    }
    let mut is = |wanted: u32, goal| at(wanted) && shown.shows(source, goal, node);
    let holds = holds || is(followed.holds, Goal::Holds(p));
    (holds, fails || is(followed.fails, Goal::Fails(p)))
}

/// The successor of a node: None where there is none.
fn successor(
    shown: &mut impl Shown,
    source: Source,
    node: Literals,
    followed: Literals,
) -> Option<Literals> {
    if shown.shows(source, Goal::Never, node) {
        return None;
    }
    let predicates = 0..shown.logic().predicates.len();
    predicates
        .into_iter()
        .try_fold(Literals::default(), |next, p| {
            match conjunct(shown, source, node, followed, p) {
                (true, true) => None,
                (false, false) => Some(next),
                (holds, _) => Some(next.with(p, holds)),
            }
        })
}

/// The ends that an action may pass at a node.
fn passed(shown: &mut impl Shown, action: usize, node: Literals) -> Vec<Fault> {
    let sets = &shown.logic().actions[action].sets;
    let ends = sets
        .iter()
        .flat_map(|&(v, _)| [Goal::Low(v), Goal::High(v)]);
    let mut ends: Vec<Goal> = ends.collect();
    ends.retain(|&end| !shown.shows(Source::Action(action), end, node));
    ends.into_iter()
        .map(|end| Fault::Passed(action, end))
        .collect()
}

/// Does a literal of the node contradict one of the combination?
pub fn contradicts(node: Literals, combination: Literals) -> bool {
    combination.holds & node.fails != 0 || combination.fails & node.holds != 0
}

/// The forbidden combinations that may be met behind a source, and not before it.
fn met(logic: &Logic, source: Source, before: Option<Literals>, node: Literals) -> Vec<Fault> {
    let out = |bad: Literals| before.map_or(true, |before| contradicts(before, bad));
    let combinations = logic.forbidden.iter().enumerate();
    let may = combinations.filter(|(_, &bad)| !contradicts(node, bad) && out(bad));
    may.map(|(k, _)| Fault::Met(k, source)).collect()
}

/// The graph of the literals that are followed, up to a number of nodes.
pub fn explore(shown: &mut impl Shown, followed: Literals, most: usize) -> Explored {
    let start = successor(shown, Source::Start, Literals::default(), followed);
    let mut nodes: Vec<Literals> = start.into_iter().collect();
    let mut seen: HashSet<Literals> = start.into_iter().collect();
    let first = start.map(|node| met(shown.logic(), Source::Start, None, node));
    let mut faults: BTreeSet<Fault> = first.into_iter().flatten().collect();
    let mut at = 0;
    while at < nodes.len() && nodes.len() <= most {
        let node = nodes[at];
        at += 1;
        for action in 0..shown.logic().actions.len() {
            let source = Source::Action(action);
            if let Some(next) = successor(shown, source, node, followed) {
                faults.extend(met(shown.logic(), source, Some(node), next));
                faults.extend(passed(shown, action, node));
                nodes.extend(seen.insert(next).then_some(next));
            }
        }
    }
    Explored {
        nodes: nodes.len(),
        faults,
        over: nodes.len() > most,
    }
}

/// All literals of a logic.
pub fn everything(logic: &Logic) -> Literals {
    let all = (1 << logic.predicates.len()) - 1;
    Literals {
        holds: all,
        fails: all,
    }
}
