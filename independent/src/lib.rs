//! An independent implementation of document 01, "Show logic, lemmas and the abstract state graph",
//! with requests 1, 2, 4, 5 and 6 of document 02, "Untouched predicates keep their literal", "Every finding
//! on the sheet", "The rack's sixteen bits", "How near was it" and "Distance in the node record". Request 3,
//! "Read a row once", changes no answer; nor does request 7, "The shortest press list", whose walks are found
//! by a module of their own, `walks`, from the EDGE words alone.

pub mod bytes;
pub mod drawing;
pub mod judge;
pub mod lemma;
pub mod program;
pub mod rack;
pub mod records;
pub mod sentences;
pub mod shows;
pub mod walks;
pub mod words;

pub use judge::{findings, judge};
pub use rack::{exact_run, rack_run, rack_step, Racked};
use words::*;

/// The number of the table and what is returned with it.
#[derive(Clone, Copy, Debug, PartialEq, Eq)]
pub struct Refusal {
    pub number: u32,
    pub value: u64,
}

#[derive(Clone, Copy, Debug, PartialEq, Eq)]
pub struct Counts {
    pub variables: usize,
    pub start_rows: usize,
    pub predicates: usize,
    pub actions: usize,
    pub forbidden: usize,
}

#[derive(Clone, Copy, Debug, PartialEq, Eq)]
pub enum Stepped {
    Moved,
    /// Request 5: it "now carries the number of the first guard row that fails and its value, which is below
    /// 0".
    NotEnabled { row: usize, value: i64 },
    /// The lowest variable whose exact new value is off its range.
    RunsOff(usize),
    Refused(Refusal),
}

#[derive(Clone, Copy, Debug, PartialEq, Eq)]
pub enum Asked {
    Accepted,
    NotAccepted,
    Refused(Refusal),
}

#[derive(Clone, Copy, Debug, PartialEq, Eq)]
pub enum Judged {
    Safe { nodes: usize, edges: usize },
    MayForbid { node: usize, bad: usize, nodes: usize, edges: usize },
    MayRunOff { node: usize, action: usize, variable: usize, high: bool, nodes: usize, edges: usize },
    Refused(Refusal),
}

#[derive(Clone, Copy, Debug, PartialEq, Eq)]
pub enum Listed {
    /// "The answer is the number of findings."
    Listed(usize),
    Refused(Refusal),
}

/// "*Check* reads a program and counts its variables, start rows, predicates, actions and forbidden
/// combinations." Refuses 2 to 4.
pub fn check(program: &[u32]) -> Result<Counts, Refusal> {
    let program = program::read(program)?;
    Ok(Counts {
        variables: program.ranges.len(),
        start_rows: program.start.len(),
        predicates: program.predicates.len(),
        actions: program.actions.len(),
        forbidden: program.forbidden.len(),
    })
}

/// "*Action part* hands back the words of one action as the part of the caller's own program list;
/// the part runs from its ACTION word up to, but without, the next ACTION, SETS or END, and every
/// refusal (2 to 4, then 8) here gives an empty part instead of a number."
pub fn action_part(words: &[u32], k: usize) -> &[u32] {
    match program::read(words) {
        Ok(program) if k < program.actions.len() => {
            let action = &program.actions[k];
            &words[action.begin..action.end]
        }
        _ => &words[..0],
    }
}

/// "Step: 2 to 4, 8, 9, 10." The program, where nothing is refused.
fn ready(words: &[u32], k: usize, state: &[i32]) -> Result<program::Program, Refusal> {
    let refuse = |number: u32, value: usize| Err(Refusal { number, value: value as u64 });
    let program = program::read(words)?;
    if k >= program.actions.len() {
        return refuse(8, k);
    }
    if state.len() != program.ranges.len() {
        return refuse(9, state.len());
    }
    for (variable, range) in program.ranges.iter().enumerate() {
        if !(range.low..=range.high).contains(&i64::from(state[variable])) {
            return refuse(10, variable);
        }
    }
    Ok(program)
}

/// Tries action k, which is there, on a state that lies on the ranges; only moved writes.
fn exact_try(program: &program::Program, k: usize, state: &mut [i32]) -> Stepped {
    let action = &program.actions[k];
    // "An action is enabled when all its guard rows hold; with no guard it always is."
    if let Some((row, value)) = action.failing_guard(state) {
        return Stepped::NotEnabled { row, value };
    }
    // "Its assignments use the old values and happen at once; other variables keep theirs."
    let values: Vec<(usize, i64)> =
        action.assignments.iter().map(|a| (a.variable, a.row.value(state))).collect();
    // "If an exact new value is off its range the action runs off." SET variables rise.
    for (variable, value) in &values {
        let range = program.ranges[*variable];
        if !(range.low..=range.high).contains(value) {
            return Stepped::RunsOff(*variable);
        }
    }
    for (variable, value) in values {
        state[variable] = value as i32;
    }
    Stepped::Moved
}

/// "*Step* runs one action on a lent list of 32-bit signed values: moved, not enabled, or runs off
/// with the lowest such variable; only moved writes." Refuses 2 to 4, 8, 9, 10.
pub fn step(words: &[u32], k: usize, state: &mut [i32]) -> Stepped {
    match ready(words, k, state) {
        Ok(program) => exact_try(&program, k, state),
        Err(refusal) => Stepped::Refused(refusal),
    }
}

/// "*Ask* says whether lemma k is accepted." Refuses 2 to 4, 5 and 6, 8, 11 for that lemma.
pub fn ask(words: &[u32], lemma_words: &[u32], k: usize) -> Asked {
    let read = program::read(words).and_then(|p| lemma::read(&p, lemma_words).map(|l| (p, l)));
    let (program, lemmas) = match read {
        Ok(both) => both,
        Err(refusal) => return Asked::Refused(refusal),
    };
    match lemmas.get(k) {
        None => Asked::Refused(Refusal { number: 8, value: k as u64 }),
        Some(lemma) => match lemma::weigh(&program, lemma) {
            None => Asked::Refused(Refusal { number: 11, value: k as u64 }),
            Some(true) => Asked::Accepted,
            Some(false) => Asked::NotAccepted,
        },
    }
}

/// "A reading view over the finished graph list answers the successor for a node and an action,
/// which is the payload of that EDGE word, all ones being none." View: 3, 1, 8 node, 8 action, 2.
/// Request 6: "The view and the findings list read the new record." Only the EDGE word asked for is tested;
/// the view does not look at the distance.
pub fn successor(
    graph: &[u32],
    nodes: usize,
    actions: usize,
    node: usize,
    action: usize,
) -> Result<u32, Refusal> {
    let refuse = |number: u32, value: usize| Err(Refusal { number, value: value as u64 });
    if nodes > MAX_NODES || actions > MAX_ACTIONS {
        return refuse(3, 0);
    }
    let record = HEADER + actions;
    if graph.len() < nodes * record {
        return refuse(1, 0);
    }
    if node >= nodes {
        return refuse(8, node);
    }
    if action >= actions {
        return refuse(8, action);
    }
    let at = node * record + HEADER + action;
    if kind(graph[at]) != EDGE {
        return refuse(2, at);
    }
    Ok(payload(graph[at]))
}
