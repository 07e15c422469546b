//! Request 5 in what the calls returned: "not enabled" names the first guard row that fails, with its value. Held to the values
//! of all guard rows, worked out in 128 bits.

use crate::rack::exact;
use bulanevior::raw::{BnvStep, BNV_NOT_ENABLED};
use independent::program::{Action, Program};

/// What is counted of the guard rows of an action that was tried.
pub const NAMES: [&str; 15] = [
    "near, the only guard row",
    "near, row 0 of several",
    "near, row 1 of several",
    "near, rows 2 to 6",
    "near, row 7",
    "near, a later row fails too",
    "near, a later row lacks more",
    "near, a row before it worth 0",
    "near, lacks 1",
    "near, lacks more than sixteen bits hold",
    "near, another value after the assignments",
    "near, none would fail after the assignments",
    "enabled, no guard row",
    "enabled, a guard row worth 0",
    "enabled, eight guard rows",
];

/// The guard rows' values.
fn worth(action: &Action, state: &[i32]) -> Vec<i128> {
    action.guards.iter().map(|row| exact(row, state)).collect()
}

fn fails(value: &i128) -> bool {
    *value < 0
}

/// The first row that fails, and its value.
fn first(values: &[i128]) -> Option<(usize, i128)> {
    values.iter().position(fails).map(|row| (row, values[row]))
}

/// The values that the assignments give, on their ranges or not: they fit in 32 bits.
fn after(action: &Action, state: &[i32]) -> Vec<i32> {
    let new = |(v, old): (usize, &i32)| action.assigned(v).map_or(*old, |row| exact(row, state) as i32);
    state.iter().enumerate().map(new).collect()
}

/// Which of NAMES occurred, where a row fails.
fn lacking(values: &[i128], later: &[i128], (row, value): (usize, i128)) -> [bool; 12] {
    let rest = &values[row + 1..];
    [
        values.len() == 1,
        values.len() > 1 && row == 0,
        row == 1,
        (2..7).contains(&row),
        row == 7,
        rest.iter().any(fails),
        rest.iter().any(|v| *v < value),
        values[..row].contains(&0),
        value == -1,
        value < -32_768,
        later[row] != value,
        !later.iter().any(fails),
    ]
}

/// Where none does.
fn enabled(values: &[i128]) -> [bool; 3] {
    [values.is_empty(), values.contains(&0), values.len() == 8]
}

/// The answer, moved, not enabled or runs off, names the first guard row that fails, and its value; where none does, nothing.
pub fn held(program: &Program, k: usize, state: &[i32], answer: &BnvStep) -> Result<[bool; 15], String> {
    let action = &program.actions[k];
    let values = worth(action, state);
    let due = first(&values);
    let told = (answer.answer == BNV_NOT_ENABLED).then_some((answer.row as usize, i128::from(answer.row_value)));
    let nothing = (answer.row, answer.row_value) == (0, 0);
    if told != due || (due.is_none() && !nothing) {
        return Err(format!("the guards are worth {values:?}, and the answer is {answer:?}"));
    }
    let mut seen = [false; 15];
    match due {
        Some(failing) => seen[..12].copy_from_slice(&lacking(&values, &worth(action, &after(action, state)), failing)),
        None => seen[12..].copy_from_slice(&enabled(&values)),
    }
    Ok(seen)
}
