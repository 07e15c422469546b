//! Words made and taken apart, as the macros of include/bulanevior.h do it.
//!
//! What does not fit its field is cut to it, without a word: keep to the limits, and have the list checked.
//! In a SETS word predicate p is bit p of what holds or of what fails.
//!
//! ```
//! use bulanevior::{check, raw, word};
//! // A level of 0 to 1,000, and an action that takes 5 off where it is at least 5.
//! let logic = [
//!     word::var(0, 1000), word::init(0), word::pred(0),
//!     word::action(1, 1), word::row(-5), word::term(0, 1),
//!     word::set(0), word::row(-5), word::term(0, 1),
//!     word::END,
//! ];
//! assert_eq!(check(&logic).map(|counts| counts.actions), Ok(1));
//! assert_eq!(word::term_coefficient(word::term(0, -1)), -1);
//! assert_eq!(word::lemma(0, raw::BNV_GOAL_LOW, 0), 0x9003_0000);
//! assert_eq!(word::lemma(word::START, raw::BNV_GOAL_FAILS, 0), 0x9FF2_0000);
//! ```
use crate::raw;

/// A word's kind, its bits 31 to 28.
pub const fn kind(word: u32) -> u32 {
    word >> 28
}

/// A word's payload, its bits 27 to 0.
pub const fn payload(word: u32) -> u32 {
    word & 0x0FFF_FFFF
}

/// The word of a kind and a payload.
pub const fn make(kind: u32, payload: u32) -> u32 {
    kind << 28 | payload & 0x0FFF_FFFF
}

/// Bits high to low of a word.
const fn bits(word: u32, high: u32, low: u32) -> u32 {
    word >> low & ((2 << (high - low)) - 1)
}

/// Bits high to low of a word, in two's complement.
const fn signed(word: u32, high: u32, low: u32) -> i32 {
    (word << (31 - high)) as i32 >> (31 - high + low)
}

/// A variable's range.
pub const fn var(low: i32, high: i32) -> u32 {
    make(
        raw::BNV_VAR,
        (low as u32 & 16383) << 14 | high as u32 & 16383,
    )
}

/// A row's constant.
pub const fn row(constant: i32) -> u32 {
    make(raw::BNV_ROW, constant as u32)
}

/// A variable's coefficient in a row.
pub const fn term(variable: usize, coefficient: i32) -> u32 {
    let variable = variable as u32 & 15;
    make(raw::BNV_TERM, variable << 24 | coefficient as u32 & 65535)
}

/// How many start rows follow.
pub const fn init(rows: usize) -> u32 {
    make(raw::BNV_INIT, rows as u32)
}

/// How many predicates follow.
pub const fn pred(predicates: usize) -> u32 {
    make(raw::BNV_PRED, predicates as u32)
}

/// An action: how many guard rows and assignments follow.
pub const fn action(guard_rows: usize, assignments: usize) -> u32 {
    let guard_rows = guard_rows as u32 & 15;
    make(raw::BNV_ACTION, guard_rows << 4 | assignments as u32 & 15)
}

/// An assignment's variable.
pub const fn set(variable: usize) -> u32 {
    make(raw::BNV_SET, variable as u32)
}

/// The predicates that hold and those that fail: a forbidden combination, or a lemma's premises.
pub const fn sets(hold: u32, fail: u32) -> u32 {
    make(raw::BNV_SETS, (fail & 16383) << 14 | hold & 16383)
}

/// The source of a lemma that is the start and no action.
pub const START: usize = raw::BNV_START as usize;

/// A lemma's source, an action or `START`, its goal, one of `raw::BNV_GOAL_..`, and the goal's index.
pub const fn lemma(source: usize, goal: u32, index: usize) -> u32 {
    let (source, index) = (source as u32 & 255, index as u32 & 255);
    make(raw::BNV_LEMMA, source << 20 | (goal & 15) << 16 | index)
}

/// A lemma's multiplier.
pub const fn mult(multiplier: u32) -> u32 {
    make(raw::BNV_MULT, multiplier)
}

/// The end of the logic.
pub const END: u32 = make(raw::BNV_END, 0);

/// The low end in a VAR word.
pub const fn var_low(word: u32) -> i32 {
    signed(word, 27, 14)
}

/// The high end in a VAR word.
pub const fn var_high(word: u32) -> i32 {
    signed(word, 13, 0)
}

/// The constant in a ROW word.
pub const fn row_constant(word: u32) -> i32 {
    signed(word, 27, 0)
}

/// The variable in a TERM word.
pub const fn term_variable(word: u32) -> usize {
    bits(word, 27, 24) as usize
}

/// The coefficient in a TERM word.
pub const fn term_coefficient(word: u32) -> i32 {
    signed(word, 15, 0)
}

/// The number of guard rows in an ACTION word.
pub const fn action_guard_rows(word: u32) -> usize {
    bits(word, 7, 4) as usize
}

/// The number of assignments in an ACTION word.
pub const fn action_assignments(word: u32) -> usize {
    bits(word, 3, 0) as usize
}

/// The predicates that hold, in a SETS word.
pub const fn sets_hold(word: u32) -> u32 {
    bits(word, 13, 0)
}

/// The predicates that fail, in a SETS word.
pub const fn sets_fail(word: u32) -> u32 {
    bits(word, 27, 14)
}

/// The source in a LEMMA word.
pub const fn lemma_source(word: u32) -> usize {
    bits(word, 27, 20) as usize
}

/// The goal in a LEMMA word.
pub const fn lemma_goal(word: u32) -> u32 {
    bits(word, 19, 16)
}

/// The index in a LEMMA word.
pub const fn lemma_index(word: u32) -> usize {
    bits(word, 7, 0) as usize
}

/// The parent and the action in an ORIGIN word; None in that of node 0.
pub const fn origin(word: u32) -> Option<(usize, usize)> {
    if payload(word) == 0x1FFF {
        return None;
    }
    Some((bits(word, 12, 4) as usize, bits(word, 3, 0) as usize))
}

/// The successor in an EDGE word, if it names one.
pub const fn edge(word: u32) -> Option<usize> {
    if payload(word) == 0x0FFF_FFFF {
        return None;
    }
    Some(payload(word) as usize)
}
