//! Request 4, "The rack's sixteen bits": the second step, and the runs that it is compared by.
//!
//! "Our racks hold each variable in sixteen bits and let sums and products wrap, constants being cut to
//! sixteen bits as well, reading the result as two's complement. Guards are worked out exactly."

use crate::program::{Action, Program, Row};
use crate::{exact_try, ready, Refusal, Stepped};

/// "It answers moved or not enabled only"; refusals are "as for step".
#[derive(Clone, Copy, Debug, PartialEq, Eq)]
pub enum Racked {
    Moved,
    /// Request 5: 'The answer "not enabled", of step and of the rack's step, now carries the number of the
    /// first guard row that fails and its value, which is below 0.'
    NotEnabled { row: usize, value: i64 },
    Refused(Refusal),
}

/// The low sixteen bits of a number: "constants being cut to sixteen bits as well".
fn cut(number: i64) -> u16 {
    number as u16
}

/// "with its own wrapping product"
fn product(a: u16, b: u16) -> u16 {
    a.wrapping_mul(b)
}

/// A row's value in the rack: "coefficients times variables, plus the constant", where "sums and products
/// wrap", "reading the result as two's complement".
fn rack_value(row: &Row, state: &[i32]) -> i32 {
    let mut total = cut(row.constant);
    for (coefficient, value) in row.coefficients.iter().zip(state) {
        total = total.wrapping_add(product(cut(*coefficient), cut(i64::from(*value))));
    }
    i32::from(total as i16)
}

/// Tries an action in the rack; only moved writes. "Guards are worked out exactly." There is no test of the
/// new values: it "writes the wrapped values even where the exact step runs off".
fn rack_try(action: &Action, state: &mut [i32]) -> Racked {
    if let Some((row, value)) = action.failing_guard(state) {
        return Racked::NotEnabled { row, value };
    }
    // "Its assignments use the old values and happen at once; other variables keep theirs."
    let values: Vec<(usize, i32)> =
        action.assignments.iter().map(|a| (a.variable, rack_value(&a.row, state))).collect();
    for (variable, value) in values {
        state[variable] = value;
    }
    Racked::Moved
}

/// "We want a second step that does what the rack does". Refuses "as for step, in the same order": 2 to 4, 8,
/// 9, 10, each of which leaves the state. A value that it stored off the range is refused 10 by a later call.
pub fn rack_step(words: &[u32], k: usize, state: &mut [i32]) -> Racked {
    match ready(words, k, state) {
        Ok(program) => rack_try(&program.actions[k], state),
        Err(refusal) => Racked::Refused(refusal),
    }
}

/// The states of the rack's run: the first, and the one left by each action tried; "one that isn't enabled
/// leaves it as it was". The rack goes on with what it stored, on the range or not. The actions are numbers
/// of the program's actions, and the state has a value per variable.
pub fn rack_run(program: &Program, actions: &[usize], state: &[i32]) -> Vec<Vec<i32>> {
    let mut states = vec![state.to_vec()];
    let mut now = state.to_vec();
    for k in actions {
        rack_try(&program.actions[*k], &mut now);
        states.push(now.clone());
    }
    states
}

/// The run of 01: "Any list of actions is tried, each on the state that the last one left". "The run's states
/// are the start state and each one left." Whether it ran off: "If an exact new value is off its range the
/// action runs off and the run ends", so that the states before it are all.
pub fn exact_run(program: &Program, actions: &[usize], state: &[i32]) -> (Vec<Vec<i32>>, bool) {
    let mut states = vec![state.to_vec()];
    let mut now = state.to_vec();
    for k in actions {
        if let Stepped::RunsOff(_) = exact_try(program, *k, &mut now) {
            return (states, true);
        }
        states.push(now.clone());
    }
    (states, false)
}
