//! Makes shows with many findings from a made one: ends that no lemma shows, more combinations, more actions.

use crate::dice::Dice;
use crate::generate::{literals, Input};
use independent::shows::{sets_word, split_lemmas};
use independent::words::*;

fn is_end(lemma: &[u32]) -> bool {
    field(lemma[0], 19, 16) >= 3
}

/// Lemmas for ends are left out: all of them, by chance, or those of one end, one action or one variable.
fn leave_out(dice: &Dice, lemmas: &mut Vec<Vec<u32>>) {
    let ends: Vec<u32> = lemmas.iter().filter(|l| is_end(l)).map(|l| l[0]).collect();
    if ends.is_empty() {
        return;
    }
    let one = dice.pick(&ends);
    let mode = dice.below(8);
    let goes = |w: u32| match mode {
        0 | 1 => true,
        2 => dice.percent(50),
        3 => dice.percent(10),
        4 => field(w, 19, 16) == field(one, 19, 16),
        5 => field(w, 27, 20) == field(one, 27, 20),
        6 => field(w, 7, 0) == field(one, 7, 0),
        _ => false,
    };
    lemmas.retain(|l| !is_end(l) || !goes(l[0]));
}

/// Where the combinations begin.
fn tail(program: &[u32]) -> usize {
    program.iter().rposition(|w| kind(*w) != SETS && kind(*w) != END).map_or(0, |last| last + 1)
}

/// Combinations more, up to eight; the empty one is open at every node.
fn forbid(dice: &Dice, program: &mut Vec<u32>) {
    let predicates = program.iter().find(|w| kind(**w) == PRED).map_or(0, |w| payload(*w) as usize);
    for _ in 0..dice.pick(&[0, 1, 1, 2, 4, 8]) {
        let end = program.len() - 1;
        if end - tail(program) < MAX_FORBIDDEN {
            let (f, t) = literals(dice, predicates, dice.pick(&[0, 1, 1, 2, 3]));
            program.insert(end, sets_word(f, t));
        }
    }
}

/// Actions once more, up to sixteen, with the lemmas that they have: the nodes stay as they are.
fn repeat(dice: &Dice, program: &mut Vec<u32>, lemmas: &mut Vec<Vec<u32>>) {
    let actions = program.iter().filter(|w| kind(**w) == ACTION).count();
    let more = if dice.percent(50) { MAX_ACTIONS } else { dice.below(MAX_ACTIONS) };
    for new in actions..more {
        let old = dice.below(actions);
        let part = independent::action_part(program, old).to_vec();
        let copy = |l: &Vec<u32>| [&[l[0] & !(0xFF << 20) | (new as u32) << 20], &l[1..]].concat();
        let copies: Vec<Vec<u32>> = lemmas.iter().filter(|l| field(l[0], 27, 20) == old as u32).map(copy).collect();
        if part.is_empty() || lemmas.len() + copies.len() > MAX_LEMMAS {
            return;
        }
        let at = tail(program);
        program.splice(at..at, part);
        lemmas.extend(copies);
    }
}

/// The same logic, with more to find.
pub fn open(dice: &Dice, input: &Input) -> Input {
    let mut program = input.program.clone();
    let mut lemmas = split_lemmas(&input.lemmas);
    let early = dice.percent(50);
    if early {
        leave_out(dice, &mut lemmas);
    }
    if dice.percent(40) {
        repeat(dice, &mut program, &mut lemmas);
    }
    if !early {
        leave_out(dice, &mut lemmas);
    }
    forbid(dice, &mut program);
    Input { program, lemmas: lemmas.concat() }
}
