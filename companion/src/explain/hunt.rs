//! Other presses that really go wrong, where no state walks the path that was found: a breadth-first search over states, from some
//! start states, as far as its room goes.
use crate::show::model::{Action, Logic};
use crate::show::rows::Row;
use crate::solve::{self, Found};
use std::collections::{HashMap, VecDeque};

/// The most states that are looked at.
const ROOM: usize = 200_000;

type State = Vec<i64>;

/// What goes wrong at the end of the presses.
#[derive(Clone, Copy, Debug, PartialEq, Eq)]
pub enum Wrong {
    Forbidden(usize),
    /// The next press of this action runs off.
    RunsOff(usize),
}

/// A start state, the presses from it, and what goes wrong behind them.
#[derive(Debug, PartialEq, Eq)]
pub struct Fault {
    pub start: State,
    pub presses: Vec<usize>,
    pub wrong: Wrong,
}

/// Some start states: any one, and one with each variable at each of its ends, where there is one.
fn starts(logic: &Logic) -> Vec<State> {
    let ends = logic.ranges.iter().enumerate().flat_map(|(v, range)| {
        let variable = Row::variable(v);
        let low = Row::constant(range.low).plus(-1, &variable);
        [low, variable.plus(-range.high, &Row::constant(1))]
    });
    let wanted = std::iter::once(None).chain(ends.map(Some));
    let mut found = Vec::new();
    for more in wanted {
        let rows: Vec<Row> = logic.start.iter().copied().chain(more).collect();
        if let Found::State(state) = solve::state(&rows, &logic.ranges) {
            if !found.contains(&state) {
                found.push(state);
            }
        }
    }
    found
}

/// The state behind an action; `Err` where it runs off, None where it is not enabled.
pub fn step(logic: &Logic, action: &Action, state: &State) -> Option<Result<State, ()>> {
    if action.guards.iter().any(|row| row.value(state) < 0) {
        return None;
    }
    let mut next = state.clone();
    for (variable, row) in &action.sets {
        let (value, range) = (row.value(state), logic.ranges[*variable]);
        if value < range.low || value > range.high {
            return Some(Err(()));
        }
        next[*variable] = value;
    }
    Some(Ok(next))
}

/// The first forbidden combination that a state meets.
pub fn forbidden(logic: &Logic, state: &[i64]) -> Option<usize> {
    logic.forbidden.iter().position(|literals| {
        literals
            .each()
            .all(|(p, holds)| (logic.predicates[p].value(state) >= 0) == holds)
    })
}

/// Where each state was first found: from which state, by which action; None for a start state.
type Origins = HashMap<State, Option<(State, usize)>>;

fn fault(origins: &Origins, end: &State, wrong: Wrong) -> Fault {
    let (mut start, mut presses) = (end.clone(), Vec::new());
    while let Some((before, action)) = &origins[&start] {
        presses.push(*action);
        start = before.clone();
    }
    presses.reverse();
    Fault {
        start,
        presses,
        wrong,
    }
}

/// What goes wrong at a state; new states behind it are noted and queued.
fn look(
    logic: &Logic,
    state: &State,
    origins: &mut Origins,
    queue: &mut VecDeque<State>,
) -> Option<Wrong> {
    if let Some(combination) = forbidden(logic, state) {
        return Some(Wrong::Forbidden(combination));
    }
    for (number, action) in logic.actions.iter().enumerate() {
        match step(logic, action, state) {
            None => {}
            Some(Err(())) => return Some(Wrong::RunsOff(number)),
            Some(Ok(next)) if origins.contains_key(&next) => {}
            Some(Ok(next)) => {
                origins.insert(next.clone(), Some((state.clone(), number)));
                queue.push_back(next);
            }
        }
    }
    None
}

/// The nearest fault that is found.
pub fn hunt(logic: &Logic) -> Option<Fault> {
    let mut queue: VecDeque<State> = starts(logic).into();
    let mut origins: Origins = queue.iter().map(|state| (state.clone(), None)).collect();
    while let Some(state) = queue.pop_front() {
        if let Some(wrong) = look(logic, &state, &mut origins, &mut queue) {
            return Some(fault(&origins, &state, wrong));
        }
        if origins.len() > ROOM {
            return None;
        }
    }
    None
}
