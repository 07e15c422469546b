//! Makes logics whose actions have many guards, most of which hold at most states and are worth 0 at an end.

use crate::dice::Dice;
use crate::generate::{at_least, at_most};
use independent::shows::{act, itself, never, row, ActionText, RowText, Text};

/// A guard on a variable of this range.
fn guard(dice: &Dice, v: u32, (low, high): (i32, i32)) -> RowText {
    let d = dice.pick(&[0, 0, 0, 1, 2]);
    match dice.below(20) {
        0..=7 => at_least(v, low + d),
        8..=13 => at_most(v, high - d),
        14 => at_least(v, dice.between(low, high)),
        15 => at_most(v, dice.between(low, high)),
        // Worth more than sixteen bits hold.
        16 => row((-1000 * (low + d)).clamp(-1_000_000, 1_000_000), &[(v, 1000)]),
        17 => row(1_000_000, &[(v, -dice.between(1, 1000))]),
        18 => row(dice.between(0, 1), &[]),
        _ => if dice.percent(30) { never() } else { row(dice.between(-9, -1), &[(v, dice.between(1, 1000))]) },
    }
}

fn action(dice: &Dice, vars: &[(i32, i32)]) -> ActionText {
    let count = dice.pick(&[0, 1, 2, 3, 5, 7, 8, 8, 8, 8]);
    let guards: Vec<RowText> = (0..count)
        .map(|_| {
            let v = dice.below(vars.len());
            guard(dice, v as u32, vars[v])
        })
        .collect();
    let v = dice.below(vars.len());
    let set = match dice.below(4) {
        0 => itself(v as u32),
        1 => (v as u32, row(vars[v].0, &[])),
        2 => (v as u32, row(vars[v].1, &[])),
        _ => (v as u32, row(dice.between(-3, 3), &[(v as u32, 1)])),
    };
    act(&guards, &[set])
}

pub fn guarded(dice: &Dice) -> Text {
    let ranges = [(0, 1), (0, 1000), (-5, 5), (-8192, 8191), (0, 8191), (3, 3)];
    let vars: Vec<(i32, i32)> = (0..dice.pick(&[1, 2, 2, 3, 8])).map(|_| dice.pick(&ranges)).collect();
    let init = vars.iter().enumerate().map(|(v, (low, _))| at_most(v as u32, low + dice.pick(&[0, 0, 4]))).collect();
    let pred = (0..dice.below(4)).map(|_| at_least(0, dice.between(vars[0].0, vars[0].1))).collect();
    let actions = (0..dice.between(1, 6)).map(|_| action(dice, &vars)).collect();
    Text { vars, init, pred, actions, bad: vec![] }
}
