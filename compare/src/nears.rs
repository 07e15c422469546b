//! Sweeps of request 5: every set of guard rows that fail, among up to eight, with values at hand; rows of the largest size;
//! every level of Fade. What is due comes from the values that the rows were made with.

use crate::calls::{Compare, Difference};
use crate::generate::Input;
use crate::near::NAMES;
use crate::rack::{wrong, RACK, STEP};
use bulanevior::raw::{BnvStep, BNV_MOVED, BNV_NOT_ENABLED};
use independent::shows::{act, row, RowText, Text, FADE};

const LOW: i32 = -8192;
const HIGH: i32 = 8191;

/// What row i is worth, where it fails and where it holds.
type Worth = fn(i32) -> (i32, i32);

const WORTHS: [Worth; 4] = [
    |_| (-1, 0),
    |i| (-10 - i, 10 + i),
    |i| (-80 + i, i),
    |i| (-66_000 - 1_000 * i, 66_000),
];

/// A row on variable i or on no variable, worth so much at the state.
fn valued(i: usize, worth: i32, state: &[i32]) -> RowText {
    let c = [1, -1, 7, 0, -60, 2, 100, -9][i];
    if c == 0 { row(worth, &[]) } else { row(worth - c * state[i], &[(i as u32, c)]) }
}

/// Action 1 has these guards; those of the others are of another number and fail otherwise.
fn among(guards: &[RowText]) -> Input {
    let others: Vec<RowText> = (0..8 - guards.len() / 2).map(|i| row(-500 - i as i32, &[])).collect();
    // It would set every variable to 1, and its guards would be worth something else.
    let sets: Vec<(u32, RowText)> = (0..8).map(|v| (v, row(1, &[]))).collect();
    let actions = vec![act(&others, &[]), act(guards, &sets), act(&others[3..], &[])];
    Input { program: Text { vars: vec![(LOW, HIGH); 8], actions, ..Text::default() }.words(), lemmas: Vec::new() }
}

struct Nears<'a> {
    compare: &'a mut Compare,
    inputs: u64,
}

/// All of them; hands back how many states they had.
pub fn sweep(compare: &mut Compare) -> Result<u64, Difference> {
    let mut nears = Nears { compare, inputs: 0 };
    nears.each_set()?;
    nears.largest()?;
    nears.fade()?;
    match NAMES.into_iter().find(|name| nears.compare.counts.of(name) == 0) {
        Some(name) => Err(format!("the guards' sweeps never had: {name}")),
        None => Ok(nears.inputs),
    }
}

impl Nears<'_> {
    /// Both calls name this row and value, and leave the state; or they move.
    fn expect(&mut self, input: &Input, k: usize, state: &[i32], due: Option<(usize, i32)>) -> Result<(), Difference> {
        self.inputs += 1;
        let (answer, (row, row_value)) = (if due.is_some() { BNV_NOT_ENABLED } else { BNV_MOVED }, due.unwrap_or((0, 0)));
        let record = BnvStep { answer, row: row as u32, variable: 0, refusal: 0, row_value, value: 0 };
        for call in [&STEP, &RACK] {
            let tried = self.compare.tried(input, call, k, state)?;
            if tried.answer != record || (due.is_some() && tried.left != state) {
                return Err(wrong(input, k, state, &format!("{record:?} is due, and {} {tried:?}", call.name)));
            }
        }
        self.compare.step(input, k, state)
    }

    /// No guard row to eight, and every set of them that fail.
    fn each_set(&mut self) -> Result<(), Difference> {
        for state in [[0; 8], [LOW; 8], [HIGH; 8], [5, -5, 300, 0, -7000, 8191, -8192, 77]] {
            for (count, worth) in (0..=8).flat_map(|count| WORTHS.map(|worth| (count, worth))) {
                for set in 0..1u32 << count {
                    let worths: Vec<i32> =
                        (0..count).map(|i| if set >> i & 1 == 1 { worth(i).0 } else { worth(i).1 }).collect();
                    let guards: Vec<RowText> = worths.iter().enumerate().map(|(i, w)| valued(i, *w, &state)).collect();
                    let due = (set != 0).then(|| set.trailing_zeros() as usize).map(|row| (row, worths[row]));
                    self.expect(&among(&guards), 1, &state, due)?;
                }
            }
        }
        Ok(())
    }

    /// Eight terms of 1,000, every set of signs, and the constant that goes with them: at the end under each sign the row is worth
    /// 66,536,000 below 0 at most. It is each row in turn, behind rows worth 0.
    fn largest(&mut self) -> Result<(), Difference> {
        for set in 0..256u32 {
            let up = |v: u32| set >> v & 1 == 1;
            let terms: Vec<(u32, i32)> = (0..8).map(|v| (v, if up(v) { 1000 } else { -1000 })).collect();
            let state: Vec<i32> = (0..8).map(|v| if up(v) { LOW } else { HIGH }).collect();
            let ups = set.count_ones() as i32;
            let value = -1_000_000 - 8_192_000 * ups - 8_191_000 * (8 - ups);
            for place in 0..8 {
                let mut guards = vec![row(0, &[]); place];
                guards.push(row(-1_000_000, &terms));
                self.expect(&among(&guards), 1, &state, Some((place, value)))?;
            }
        }
        Ok(())
    }

    /// Action 0 takes 5 off if the level is at least 5, action 1 adds 5 if it is at most 995.
    fn fade(&mut self) -> Result<(), Difference> {
        let input = Input { program: FADE.to_vec(), lemmas: Vec::new() };
        for level in 0..=1000 {
            self.expect(&input, 0, &[level], (level < 5).then(|| (0, level - 5)))?;
            self.expect(&input, 1, &[level], (level > 995).then(|| (0, 995 - level)))?;
        }
        Ok(())
    }
}
