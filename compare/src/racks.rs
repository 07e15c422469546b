//! Sweeps of request 4: products, sums, constants and guards at and around the ends of sixteen bits, each new value and
//! each answer worked out here in 128 bits.

use crate::calls::{Compare, Difference};
use crate::counts::DUE;
use crate::generate::Input;
use crate::rack::{wrapped, wrong, RACK};
use bulanevior::raw::{BnvStep, BNV_MOVED, BNV_NOT_ENABLED};
use independent::shows::{act, itself, row, RowText, Text};
use independent::words::MAX_VARIABLES;

const LOW: i32 = -8192;
const HIGH: i32 = 8191;

const COEFFICIENTS: [i32; 28] = [
    -1000, -999, -513, -512, -129, -128, -65, -64, -33, -32, -9, -8, -7, -1, 1, 7, 8, 9, 32, 33, 64, 65, 128, 129, 512, 513, 999, 1000,
];

/// At and around every multiple of 32,768, and both ends.
fn constants() -> Vec<i32> {
    let around = (-30..=30).flat_map(|n| (-2..=2).map(move |d| n * 32_768 + d));
    around.chain([-1_000_000, -999_999, 999_999, 1_000_000]).collect()
}

/// Every nth value of the widest range, its ends with their neighbours, and the neighbours of 0.
fn values(every: usize) -> Vec<i32> {
    let mut values: Vec<i32> = (LOW..=HIGH).step_by(every).chain(LOW..LOW + 3).chain(-3..4).chain(HIGH - 2..=HIGH).collect();
    values.sort_unstable();
    values.dedup();
    values
}

/// c and k of c * x + k, where x is variable 0.
type Line = (i32, i32);

fn text(line: &Line) -> RowText {
    row(line.1, &[(0, line.0)])
}

fn at(line: &Line, x: i32) -> i128 {
    i128::from(line.0) * i128::from(x) + i128::from(line.1)
}

/// One action on as many variables of the widest range.
fn logic(variables: usize, guards: &[RowText], sets: &[(u32, RowText)]) -> Input {
    let actions = vec![act(guards, sets)];
    Input { program: Text { vars: vec![(LOW, HIGH); variables], actions, ..Text::default() }.words(), lemmas: Vec::new() }
}

/// Each variable is set to its own line of variable 0.
fn lines(lines: &[Line]) -> Input {
    let sets: Vec<(u32, RowText)> = (0..).zip(lines).map(|(v, line)| (v, text(line))).collect();
    logic(lines.len(), &[], &sets)
}

struct Racks<'a> {
    compare: &'a mut Compare,
    inputs: u64,
}

/// All of them; hands back how many states they had.
pub fn sweep(compare: &mut Compare) -> Result<u64, Difference> {
    let mut racks = Racks { compare, inputs: 0 };
    racks.each_value()?;
    racks.each_constant()?;
    racks.each_coefficient()?;
    racks.eight_terms()?;
    racks.guards()?;
    let mut due = DUE.iter().filter(|name| name.starts_with("rack") && !name.contains("refusal"));
    match due.find(|name| racks.compare.counts.of(name) == 0) {
        Some(name) => Err(format!("the rack's sweeps never had: {name}")),
        None => Ok(racks.inputs),
    }
}

impl Racks<'_> {
    /// The rack leaves these values, or a guard row is worth less than 0.
    fn expect(&mut self, input: &Input, state: &[i32], new: Result<Vec<i128>, i128>) -> Result<(), Difference> {
        self.inputs += 1;
        let rack = self.compare.tried(input, &RACK, 0, state)?;
        let BnvStep { answer, row, row_value, .. } = rack.answer;
        let due = (if new.is_ok() { BNV_MOVED } else { BNV_NOT_ENABLED }, 0, *new.as_ref().err().unwrap_or(&0));
        let left = new.unwrap_or_else(|_| state.iter().map(|x| i128::from(*x)).collect());
        if (answer, row, i128::from(row_value)) != due || !rack.left.iter().map(|x| i128::from(*x)).eq(left.iter().copied()) {
            return Err(wrong(input, 0, state, &format!("{due:?} with {left:?} is due, and the rack's step {rack:?}")));
        }
        Ok(())
    }

    /// All lines at these values of variable 0; at the first and the last one with Step.
    fn lines(&mut self, all: &[Line], values: &[i32]) -> Result<(), Difference> {
        let input = lines(all);
        let mut state = vec![-1; all.len()];
        for x in values {
            state[0] = *x;
            self.expect(&input, &state, Ok(all.iter().map(|line| wrapped(at(line, *x))).collect()))?;
        }
        for x in [values[0], values[values.len() - 1]] {
            state[0] = x;
            self.compare.step(&input, 0, &state)?;
        }
        Ok(())
    }

    /// One variable: each coefficient with all values, and a few constants.
    fn each_value(&mut self) -> Result<(), Difference> {
        for (n, c) in COEFFICIENTS.into_iter().enumerate() {
            self.lines(&[(c, [0, 32_768, -32_769, 1_000_000][n % 4])], &values(1))?;
        }
        Ok(())
    }

    /// Each coefficient with each constant: one variable with few values, eight lines at once with more.
    fn each_constant(&mut self) -> Result<(), Difference> {
        let all: Vec<Line> = COEFFICIENTS.iter().flat_map(|c| constants().into_iter().map(|k| (*c, k))).collect();
        for line in &all {
            self.lines(std::slice::from_ref(line), &values(1_021))?;
        }
        for some in all.chunks(MAX_VARIABLES) {
            self.lines(some, &values(7))?;
        }
        Ok(())
    }

    /// Every coefficient.
    fn each_coefficient(&mut self) -> Result<(), Difference> {
        let all: Vec<Line> = (-1000..=1000).filter(|c| *c != 0).map(|c| (c, c % 3)).collect();
        for some in all.chunks(MAX_VARIABLES) {
            self.lines(some, &values(97))?;
        }
        Ok(())
    }

    /// Eight terms of the largest size, every set of signs, at the ends of the ranges.
    fn eight_terms(&mut self) -> Result<(), Difference> {
        for (set, k) in (0..256u32).flat_map(|set| [-1_000_000, -1, 0, 1_000_000].map(|k| (set, k))) {
            for c in [1000, 999, 5, 4, 1] {
                let terms: Vec<(u32, i32)> = (0..8).map(|v| (v, if set >> v & 1 == 1 { c } else { -c })).collect();
                let input = logic(8, &[], &[(3, row(k, &terms))]);
                for state in [[LOW; 8], [HIGH; 8], [LOW, HIGH, LOW, HIGH, LOW, HIGH, LOW, HIGH], [LOW + 1, 1, 0, -1, 8, -1, 7, 0]] {
                    let value: i128 = terms.iter().zip(state).map(|((_, c), x)| i128::from(*c) * i128::from(x)).sum();
                    let mut new = state.map(i128::from).to_vec();
                    new[3] = wrapped(value + i128::from(k));
                    self.expect(&input, &state, Ok(new))?;
                }
            }
        }
        Ok(())
    }

    /// A guard for each coefficient and constant, at the ends and where it begins to hold.
    fn guards(&mut self) -> Result<(), Difference> {
        for (c, k) in COEFFICIENTS.iter().flat_map(|c| constants().into_iter().map(move |k| (*c, k))) {
            let input = logic(1, &[text(&(c, k))], &[itself(0)]);
            let zero = (-k / c).clamp(LOW + 1, HIGH - 1);
            for x in [LOW, zero - 1, zero, zero + 1, -1, 0, 1, HIGH] {
                let value = at(&(c, k), x);
                self.expect(&input, &[x], if value < 0 { Err(value) } else { Ok(vec![i128::from(x)]) })?;
            }
            self.compare.step(&input, 0, &[zero])?;
        }
        Ok(())
    }
}
