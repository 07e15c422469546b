//! Makes logics whose products, sums and constants pass sixteen bits, with actions that are enabled.

use crate::dice::Dice;
use crate::generate::{at_least, at_most};
use independent::shows::{act, row, ActionText, RowText, Text};

/// A variable, and a value of it that the logic starts near.
struct Variable {
    low: i32,
    high: i32,
    home: i32,
}

fn sign(dice: &Dice) -> i32 {
    dice.pick(&[1, -1])
}

fn coefficient(dice: &Dice) -> i32 {
    sign(dice) * match dice.below(5) {
        0 => dice.pick(&[1000, 999, 513, 512, 256, 129, 128, 64]),
        1 => dice.between(1, 1000),
        2 | 3 => dice.between(1, 9),
        _ => 1,
    }
}

fn constant(dice: &Dice) -> i32 {
    match dice.below(5) {
        0 => dice.between(-30, 30) * 32_768 + dice.between(-2, 2),
        1 => dice.between(-1_000_000, 1_000_000),
        2 => sign(dice) * 1_000_000,
        _ => dice.between(-50, 50),
    }
}

/// Anything, on up to three variables.
fn any(dice: &Dice, vars: &[Variable]) -> RowText {
    let from = dice.below(vars.len());
    let terms: Vec<(u32, i32)> =
        (from..vars.len()).take(3).filter(|_| dice.percent(70)).map(|v| (v as u32, coefficient(dice))).collect();
    row(constant(dice), &terms)
}

/// Products of at most sixteen bits, whose sum has more.
fn sum(dice: &Dice, vars: &[Variable]) -> RowText {
    let s = sign(dice);
    let all: Vec<(u32, i32)> = (0..vars.len() as u32).map(|v| (v, s * dice.between(2, 3))).collect();
    row(dice.between(-20_000, 20_000), &all)
}

/// c * (y - y's home) + x's home, with guards under which it stays on x's range: its products pass sixteen bits, it does not.
fn tame(dice: &Dice, vars: &[Variable]) -> ActionText {
    let (x, y) = (dice.below(vars.len()), dice.below(vars.len()));
    let (to, from) = (&vars[x], &vars[y]);
    let room = (to.home - to.low).min(to.high - to.home);
    let mut c = coefficient(dice);
    while (to.home - c * from.home).abs() > 1_000_000 {
        c /= 2;
    }
    if c == 0 || c.abs() > room.max(1) {
        c = sign(dice);
    }
    let near = (room / c.abs()).min(dice.pick(&[1, 2, 8, 9000]));
    let guards = [at_least(y as u32, (from.home - near).max(from.low)), at_most(y as u32, (from.home + near).min(from.high))];
    act(&guards, &[(x as u32, row(to.home - c * from.home, &[(y as u32, c)]))])
}

/// At most one guard, which often holds, and whose value often passes sixteen bits.
fn guards(dice: &Dice, vars: &[Variable]) -> Vec<RowText> {
    match dice.below(6) {
        0..=2 => vec![],
        3 => vec![row(dice.between(32_768, 90_000), &[(0, sign(dice))])],
        4 => vec![row(dice.pick(&[0, 1, 40_000, 1_000_000]), &[(0, coefficient(dice))])],
        _ => vec![any(dice, vars)],
    }
}

/// Some variables are set, to anything.
fn wild(dice: &Dice, vars: &[Variable]) -> ActionText {
    let first = dice.below(vars.len());
    let mut sets = Vec::new();
    for (v, variable) in vars.iter().enumerate().filter(|(v, _)| *v == first || dice.percent(25)) {
        let x = v as u32;
        let new = match dice.below(6) {
            0 => any(dice, vars),
            1 | 2 => sum(dice, vars),
            // It comes back to where it was, or near it.
            3 => row(65_536 * dice.between(-15, 15) + dice.between(-1, 1), &[(x, 1)]),
            4 => row(65_536 * dice.between(-15, 15) + dice.between(variable.low, variable.high), &[]),
            _ => row(constant(dice), &[(x, coefficient(dice))]),
        };
        sets.push((x, new));
    }
    act(&guards(dice, vars), &sets)
}

/// Tame actions, from starts near home, or wild ones among them.
pub fn wide(dice: &Dice) -> Text {
    let variable = |_| {
        let widest = (-8192, 8191);
        let (low, high) = dice.pick(&[widest, widest, widest, (0, 8191), (-8192, -1), (900, 1100), (-9, 9), (7990, 7999)]);
        Variable { low, high, home: dice.pick(&[low, high, (low + high) / 2, dice.between(low, high), dice.between(low, high)]) }
    };
    let vars: Vec<Variable> = (0..dice.pick(&[1, 1, 2, 2, 3, 4, 8])).map(variable).collect();
    let mut init = Vec::new();
    for (v, variable) in vars.iter().enumerate().take(4) {
        let near = dice.pick(&[0, 0, 1, 5]);
        init.push(at_least(v as u32, variable.home - near));
        init.push(at_most(v as u32, variable.home + near));
    }
    let wild_ones = dice.pick(&[0, 0, 50, 100, 100]);
    let action = |_| if dice.percent(wild_ones) { wild(dice, &vars) } else { tame(dice, &vars) };
    let actions = (0..dice.between(1, 6)).map(action).collect();
    let pred = (0..dice.below(3)).map(|_| at_least(0, dice.between(vars[0].low, vars[0].high))).collect();
    Text { vars: vars.iter().map(|v| (v.low, v.high)).collect(), init, pred, actions, bad: vec![] }
}
