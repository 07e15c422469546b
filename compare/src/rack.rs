//! Request 4 in what the calls returned: the rack's step held to Step, and to the exact values modulo 65,536, worked out
//! here in 128 bits.

use crate::calls::{hexadecimal, Compare, Difference};
use crate::counts::rack_name;
use crate::generate::Input;
use crate::near;
use crate::other;
use bulanevior::raw::{self as library, BnvStep, BNV_MOVED, BNV_NOT_ENABLED, BNV_RUNS_OFF, BNV_STEP_REFUSED};
use independent::program::{Program, Range, Row};

/// One of the two calls that try an action.
pub struct Call {
    pub name: &'static str,
    pub library: Try,
    pub other: Try,
}

pub type Try = fn(&[u32], usize, &mut [i32]) -> BnvStep;

pub const STEP: Call = Call { name: "step", library: library::step, other: other::step };
pub const RACK: Call = Call { name: "rack step", library: library::rack_step, other: other::rack_step };

/// What a call answered, and the state that it left.
#[derive(Debug, PartialEq, Eq)]
pub struct Tried {
    pub answer: BnvStep,
    pub left: Vec<i32>,
}

/// What is counted of the rack's steps that move, and last of the guards.
pub const NAMES: [&str; 6] = [
    "rack, a product past sixteen bits",
    "rack, a sum past sixteen bits",
    "rack, a constant past sixteen bits",
    "rack, a value off its range stored",
    "rack, a value wrapped back on its range",
    "rack, a guard past sixteen bits",
];

/// Something about steps that cannot be.
pub fn untrue(input: &Input, fault: &str) -> Difference {
    format!("FALSE: {fault}\n{}{}", hexadecimal("program", &input.program), hexadecimal("lemmas", &input.lemmas))
}

/// The same of one step.
pub fn wrong(input: &Input, k: usize, state: &[i32], fault: &str) -> Difference {
    untrue(input, &format!("{fault}\n  action {k} from {state:?}"))
}

/// A row's products and its constant, exact.
fn parts<'a>(row: &'a Row, state: &'a [i32]) -> impl Iterator<Item = i128> + 'a {
    let products = row.coefficients.iter().zip(state).map(|(c, x)| i128::from(*c) * i128::from(*x));
    products.chain([i128::from(row.constant)])
}

pub fn exact(row: &Row, state: &[i32]) -> i128 {
    parts(row, state).sum()
}

/// It fits in sixteen bits, read as two's complement.
fn short(value: i128) -> bool {
    (-32_768..=32_767).contains(&value)
}

/// The number in sixteen bits that differs from this one by a multiple of 65,536.
pub fn wrapped(value: i128) -> i128 {
    (value + 32_768).rem_euclid(65_536) - 32_768
}

fn on(range: &Range, value: i128) -> bool {
    (i128::from(range.low)..=i128::from(range.high)).contains(&value)
}

/// The lowest variable off its range.
pub fn off(program: &Program, state: &[i32]) -> Option<usize> {
    program.ranges.iter().zip(state).position(|(range, x)| !on(range, i128::from(*x)))
}

/// Whether a product, the sum or the constant of what the action sets passes sixteen bits, the sum where nothing else does.
pub fn past(program: &Program, k: usize, state: &[i32]) -> [bool; 3] {
    let mut past = [false; 3];
    for row in program.actions[k].assignments.iter().map(|a| &a.row) {
        let product = parts(row, state).take(state.len()).any(|product| !short(product));
        let constant = !short(i128::from(row.constant));
        past[0] |= product;
        past[1] |= !product && !constant && !short(exact(row, state));
        past[2] |= constant;
    }
    past
}

/// Holds the rack's answer and the state that it left to the exact values. Says which of NAMES occurred.
fn held(program: &Program, k: usize, state: &[i32], rack: &Tried) -> Result<[bool; 6], String> {
    let action = &program.actions[k];
    let guards: Vec<i128> = action.guards.iter().map(|row| exact(row, state)).collect();
    let enabled = guards.iter().all(|value| *value >= 0);
    if rack.answer.answer != if enabled { BNV_MOVED } else { BNV_NOT_ENABLED } {
        return Err(format!("the guards are {guards:?}, and the rack's step {rack:?}"));
    }
    let mut seen = [false; 6];
    for (v, range) in program.ranges.iter().enumerate() {
        let Some(row) = action.assigned(v).filter(|_| enabled) else {
            if rack.left[v] != state[v] {
                return Err(format!("variable {v} is not set, and the rack's step {rack:?}"));
            }
            continue;
        };
        let (value, new) = (exact(row, state), i128::from(rack.left[v]));
        if !short(new) || (value - new) % 65_536 != 0 {
            return Err(format!("the new value of variable {v} is {value}, and the rack's step {rack:?}"));
        }
        seen[3] |= !on(range, new);
        seen[4] |= !on(range, value) && on(range, new);
    }
    if enabled {
        seen[..3].copy_from_slice(&past(program, k, state));
    }
    // In sixteen bits it would have another sign.
    seen[5] = guards.iter().any(|value| (*value >= 0) != (wrapped(*value) >= 0));
    Ok(seen)
}

impl Compare {
    /// The rack's step from a state from which Step was tried. Where Step does not run off it answers and leaves the same.
    pub fn rack(&mut self, input: &Input, k: usize, state: &[i32], step: &Tried) -> Result<(), Difference> {
        let rack = self.tried(input, &RACK, k, state)?;
        let BnvStep { answer, refusal, .. } = rack.answer;
        self.counts.note(rack_name(answer, refusal));
        let runs_off = step.answer.answer == BNV_RUNS_OFF;
        let due = if runs_off { answer == BNV_MOVED } else { *step == rack };
        if !due {
            return Err(wrong(input, k, state, &format!("Step {step:?}, and the rack's step {rack:?}")));
        }
        self.counts.note(if runs_off { "rack moved where Step runs off" } else { "rack, the same as Step" });
        if answer == BNV_STEP_REFUSED {
            return Ok(());
        }
        let program = independent::program::read(&input.program).expect("a program whose action was tried");
        let seen = held(&program, k, state, &rack).map_err(|fault| wrong(input, k, state, &fault))?;
        self.counts.note_seen(&NAMES, &seen);
        let near = |tried: &Tried| near::held(&program, k, state, &tried.answer).map_err(|fault| wrong(input, k, state, &fault));
        near(&rack)?;
        self.counts.note_seen(&near::NAMES, &near(step)?);
        match off(&program, &rack.left) {
            Some(variable) => self.refused_next(input, k, &rack.left, variable),
            None => Ok(()),
        }
    }

    /// A state that the rack left off a range is refused by both calls, with the lowest such variable.
    fn refused_next(&mut self, input: &Input, k: usize, state: &[i32], variable: usize) -> Result<(), Difference> {
        let due = BnvStep { answer: BNV_STEP_REFUSED, row: 0, variable: 0, refusal: 10, row_value: 0, value: variable };
        for call in [&STEP, &RACK] {
            let next = self.tried(input, call, k, state)?;
            if next.answer != due || next.left != state {
                return Err(wrong(input, k, state, &format!("off a range, and {} {next:?}", call.name)));
            }
        }
        Ok(())
    }
}
