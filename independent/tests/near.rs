//! Request 5, "How near was it": the guard row that "not enabled" carries and its value, worked out by hand,
//! for both steps, and sweeps beside the plain sentence.
//!
//! By hand is: the value of each guard row at the state, "coefficients times variables, plus the constant",
//! in their order; the first of them that is below 0, counted from 0, is what both steps say.

use independent::program::read;
use independent::shows::*;
use independent::words::*;
use independent::*;

fn logic(vars: &[(i32, i32)], actions: &[ActionText]) -> Text {
    Text { vars: vars.to_vec(), actions: actions.to_vec(), ..Text::default() }
}

/// A level of the widest range, and an action with these guards that assigns 7 to it.
fn guarded(guards: &[RowText]) -> Vec<u32> {
    logic(&[(-8192, 8191)], &[act(guards, &[(0, row(7, &[]))])]).words()
}

/// The same, guarded by rows of a list, in this order.
fn guarded_by(rows: &[RowText], order: &[usize]) -> Vec<u32> {
    guarded(&order.iter().map(|i| rows[*i].clone()).collect::<Vec<_>>())
}

/// The answers of both steps and what they leave.
type Both = (Stepped, Vec<i32>, Racked, Vec<i32>);

fn both(words: &[u32], k: usize, state: &[i32]) -> Both {
    let (mut exact, mut rack) = (state.to_vec(), state.to_vec());
    let stepped = step(words, k, &mut exact);
    let racked = rack_step(words, k, &mut rack);
    (stepped, exact, racked, rack)
}

/// Both steps say not enabled, carry this row and this value, and leave the state.
fn near(words: &[u32], k: usize, state: &[i32], row: usize, value: i64) {
    let old = state.to_vec();
    let answers = (Stepped::NotEnabled { row, value }, old.clone(), Racked::NotEnabled { row, value }, old);
    assert_eq!(both(words, k, state), answers, "action {k} at {state:?}");
}

/// Both steps move to this state.
fn moves(words: &[u32], k: usize, state: &[i32], new: &[i32]) {
    let answers = (Stepped::Moved, new.to_vec(), Racked::Moved, new.to_vec());
    assert_eq!(both(words, k, state), answers, "action {k} at {state:?}");
}

/// Both steps refuse so, and leave the state.
fn refuses(words: &[u32], k: usize, state: &[i32], number: u32, value: u64) {
    let (refusal, old) = (Refusal { number, value }, state.to_vec());
    let answers = (Stepped::Refused(refusal), old.clone(), Racked::Refused(refusal), old);
    assert_eq!(both(words, k, state), answers, "action {k} at {state:?}");
}

// ---------------------------------------------------------------------------------------------
// The worked shows

/// "action 0 takes 5 off if the level is at least 5": the guard is the level minus 5. "action 1 adds 5 if at
/// most 995": it is 995 minus the level.
#[test]
fn fade() {
    for (level, value) in [(0, -5), (1, -4), (2, -3), (3, -2), (4, -1)] {
        near(&FADE, 0, &[level], 0, value);
    }
    moves(&FADE, 0, &[5], &[0]);
    for (level, value) in [(996, -1), (997, -2), (998, -3), (999, -4), (1000, -5)] {
        near(&FADE, 1, &[level], 0, value);
    }
    moves(&FADE, 1, &[995], &[1000]);
}

/// "0 if level is 0, house 1": over its range that is minus the level. "1 if house is 0, level 500": minus
/// the house. "2 level 0; 3 house 0" have no guard.
#[test]
fn house_light() {
    let p = house().words();
    near(&p, 0, &[1, 0], 0, -1);
    near(&p, 0, &[500, 1], 0, -500);
    near(&p, 0, &[1000, 0], 0, -1000);
    moves(&p, 0, &[0, 1], &[0, 1]);
    near(&p, 1, &[0, 1], 0, -1);
    near(&p, 1, &[1000, 1], 0, -1);
    moves(&p, 1, &[1000, 0], &[500, 0]);
    moves(&p, 2, &[1000, 1], &[0, 1]);
    moves(&p, 3, &[1000, 1], &[1000, 0]);
}

/// "level is 5" takes two rows, level - 5 and 5 - level: below 5 the first fails, above it the second.
#[test]
fn level_is_5() {
    let p = guarded(&[row(-5, &[(0, 1)]), row(5, &[(0, -1)])]);
    for (level, failing, value) in [(4, 0, -1), (0, 0, -5), (-8192, 0, -8197), (6, 1, -1), (8191, 1, -8186)] {
        near(&p, 0, &[level], failing, value);
    }
    moves(&p, 0, &[5], &[7]);
}

// ---------------------------------------------------------------------------------------------
// Which row

/// x - 2, y - 1 and 10 - x - y; all others hold.
#[test]
fn the_last_row_only() {
    let guards = [row(-2, &[(0, 1)]), row(-1, &[(1, 1)]), row(10, &[(0, -1), (1, -1)])];
    let p = logic(&[(0, 50); 2], &[act(&guards, &[(0, row(0, &[]))])]).words();
    near(&p, 0, &[5, 7], 2, -2); // 3, 6, -2
    near(&p, 0, &[2, 9], 2, -1); // 0, 8, -1
    near(&p, 0, &[50, 50], 2, -90); // 48, 49, -90
    moves(&p, 0, &[4, 6], &[0, 6]); // 2, 5, 0
}

/// The same rows where the first fails alone, and the second alone.
#[test]
fn one_of_three() {
    let guards = [row(-2, &[(0, 1)]), row(-1, &[(1, 1)]), row(10, &[(0, -1), (1, -1)])];
    let p = logic(&[(0, 50); 2], &[act(&guards, &[(0, row(0, &[]))])]).words();
    near(&p, 0, &[0, 7], 0, -2); // -2, 6, 3
    near(&p, 0, &[1, 9], 0, -1); // -1, 8, 0
    near(&p, 0, &[2, 0], 1, -1); // 0, -1, 8
    near(&p, 0, &[10, 0], 1, -1); // 8, -1, 0
}

/// The first that fails is named with its own value, whether a later one is nearer or further.
#[test]
fn several_fail() {
    let rows = [row(-1, &[(0, 1)]), row(-20, &[(0, 2)]), row(-9, &[(0, 1)])]; // x - 1, 2x - 20, x - 9
    let p = guarded(&rows);
    near(&p, 0, &[4], 1, -12); // 3, -12, -5
    near(&p, 0, &[8], 1, -4); // 7, -4, -1
    near(&p, 0, &[9], 1, -2); // 8, -2, 0
    near(&p, 0, &[1], 1, -18); // 0, -18, -8
    near(&p, 0, &[0], 0, -1); // -1, -20, -9
    near(&p, 0, &[-100], 0, -101); // -101, -220, -109
    moves(&p, 0, &[10], &[7]); // 9, 0, 1
    // The other way round, and turned.
    let p = guarded_by(&rows, &[2, 1, 0]);
    near(&p, 0, &[4], 0, -5); // -5, -12, 3
    near(&p, 0, &[9], 1, -2); // 0, -2, 8
    near(&p, 0, &[-100], 0, -109); // -109, -220, -101
    let p = guarded_by(&rows, &[1, 0, 2]);
    near(&p, 0, &[4], 0, -12); // -12, 3, -5
    near(&p, 0, &[0], 0, -20); // -20, -1, -9
}

/// Equal rows: the first of them. At 2 the rows of the list are worth -3 and 3.
#[test]
fn the_same_row_again() {
    let rows = [row(-5, &[(0, 1)]), row(5, &[(0, -1)])];
    near(&guarded_by(&rows, &[0, 0, 0]), 0, &[2], 0, -3);
    near(&guarded_by(&rows, &[1, 0, 0]), 0, &[2], 1, -3);
    near(&guarded_by(&rows, &[1, 1, 0, 0, 1]), 0, &[2], 2, -3);
}

/// "guard rows 7..4 [...] each 0 to 8": each of eight rows fails alone. Row i is (-1)^i x + 10i + 20, but for
/// the failing one, which is x - 100: at 3 that is -97, and the others are 23, 27, 43, 47, 63, 67, 83, 87.
#[test]
fn eight_rows() {
    let sign = |i: i32| if i % 2 == 0 { 1 } else { -1 };
    let rows: Vec<RowText> = (0..8).map(|i| row(10 * i + 20, &[(0, sign(i))])).collect();
    moves(&guarded(&rows), 0, &[3], &[7]);
    for failing in 0..8 {
        let mut guards = rows.clone();
        guards[failing] = row(-100, &[(0, 1)]);
        near(&guarded(&guards), 0, &[3], failing, -97);
    }
    near(&guarded(&[&rows[..7], &[never()]].concat()), 0, &[3], 7, -1);
}

/// Of eight rows the first few hold and all others fail, row i being worth -i - 1.
#[test]
fn all_from_one_on() {
    for first in 0..8 {
        let constant = |i: i32| if i < first { 0 } else { -i - 1 };
        let guards: Vec<RowText> = (0..8).map(|i| row(constant(i), &[])).collect();
        near(&guarded(&guards), 0, &[0], first as usize, i64::from(-first) - 1);
    }
}

/// There are no more guard rows than eight: "a count field too high" is 3 at the ACTION word, here word 3.
#[test]
fn nine_rows_and_more() {
    for count in 9..=15 {
        let words = guarded(&vec![never(); count]);
        assert_eq!(words[3], make(ACTION, (count as u32) << 4 | 1));
        refuses(&words, 0, &[0], 3, 3);
    }
}

/// "Everything counts from 0", and the rows are the action's own: not with those of the start, the predicates,
/// the actions before or the assignments. Action 1 has the guards x, x - 3 and 8 - x, action 2 has 2 - x.
#[test]
fn counted_within_the_action() {
    let t = Text {
        vars: vec![(0, 9)],
        init: vec![never(); 8],
        pred: vec![never(); 14],
        actions: vec![
            act(&vec![row(-70, &[]); 8], &[(0, row(-60, &[]))]),
            act(&[row(0, &[(0, 1)]), row(-3, &[(0, 1)]), row(8, &[(0, -1)])], &[(0, row(-60, &[]))]),
            act(&[row(2, &[(0, -1)])], &[(0, row(4, &[]))]),
        ],
        bad: vec![(0, 1)],
    };
    let p = t.words();
    near(&p, 0, &[5], 0, -70);
    near(&p, 1, &[1], 1, -2); // 1, -2, 7
    near(&p, 1, &[9], 2, -1); // 9, 6, -1
    near(&p, 2, &[7], 0, -5);
    moves(&p, 2, &[2], &[4]);
}

// ---------------------------------------------------------------------------------------------
// What it is worth

/// "yes is then a value of at least 0": 0 holds and -1 fails. 3x - 2y + 1 at several states.
#[test]
fn zero_holds() {
    let guards = [row(1, &[(0, 3), (1, -2)])];
    let p = logic(&[(-9, 9); 2], &[act(&guards, &[(0, row(7, &[]))])]).words();
    // 3 - 4, -3 + 2, 9 - 10 and 15 - 16 are -1 each, and with the 1 they are 0.
    for (x, y) in [(1, 2), (-1, -1), (3, 5), (5, 8)] {
        moves(&p, 0, &[x, y], &[7, y]);
    }
    // 0 - 2, 6 - 8, -6 + 4 and 12 - 14 are -2 each, and with the 1 they are -1.
    for (x, y) in [(0, 1), (2, 4), (-2, -2), (4, 7)] {
        near(&p, 0, &[x, y], 0, -1);
    }
    near(&p, 0, &[-9, 9], 0, -44); // -27 - 18 + 1
}

/// The same in each of three rows: with two rows worth 0, the third at 0 and at -1.
#[test]
fn zero_holds_in_each_row() {
    let zero = row(0, &[(0, 1), (1, -1)]); // x - y where both are 4
    let p = |guards: &[RowText]| logic(&[(0, 9); 2], &[act(guards, &[(1, row(0, &[]))])]).words();
    moves(&p(&[zero.clone(), zero.clone(), zero.clone()]), 0, &[4, 4], &[4, 0]);
    for failing in 0..3 {
        let mut guards = vec![zero.clone(); 3];
        guards[failing].0 = -1;
        near(&p(&guards), 0, &[4, 4], failing, -1);
    }
}

/// A row without terms is worth its constant, at any state.
#[test]
fn rows_without_terms() {
    for constant in [-1, -2, -7, -40_000, -65_536, -999_999, -1_000_000] {
        for level in [-8192, -1, 0, 5, 8191] {
            near(&guarded(&[row(constant, &[])]), 0, &[level], 0, i64::from(constant));
            near(&guarded(&[row(0, &[]), row(constant, &[])]), 0, &[level], 1, i64::from(constant));
        }
    }
    for constant in [0, 1, 40_000, 65_535, 1_000_000] {
        moves(&guarded(&[row(constant, &[])]), 0, &[-3], &[7]);
    }
}

/// What the rows before are worth, much or 0, does not count.
#[test]
fn rows_before() {
    let rows = [row(1_000_000, &[(0, 1000)]), row(-5000, &[(0, 1000)]), row(-6, &[(0, 1)])];
    // At 5 they are worth 1,005,000 and 0 and -1.
    near(&guarded_by(&rows, &[0, 2]), 0, &[5], 1, -1);
    near(&guarded_by(&rows, &[1, 2]), 0, &[5], 1, -1);
    near(&guarded_by(&rows, &[0, 1, 0, 2]), 0, &[5], 3, -1);
    near(&guarded_by(&rows, &[1, 1, 0, 2, 0, 1]), 0, &[5], 3, -1);
    // At 4: 1,004,000 and -1000 and -2.
    near(&guarded_by(&rows, &[0, 1, 2]), 0, &[4], 1, -1000);
    near(&guarded_by(&rows, &[0, 2, 1]), 0, &[4], 1, -2);
}

/// Only the old values count: 100x + 10y + z - 500, and then the three values are moved round.
#[test]
fn the_state_it_was_tried_on() {
    let var = |v: u32| row(0, &[(v, 1)]);
    let guard = row(-500, &[(0, 100), (1, 10), (2, 1)]);
    let round = act(&[guard], &[(0, var(1)), (1, var(2)), (2, var(0))]);
    let p = logic(&[(0, 9); 3], &[round]).words();
    near(&p, 0, &[1, 2, 9], 0, -371); // 129 - 500
    near(&p, 0, &[4, 9, 9], 0, -1);
    near(&p, 0, &[0, 0, 0], 0, -500);
    moves(&p, 0, &[5, 0, 0], &[0, 0, 5]);
    near(&p, 0, &[0, 0, 5], 0, -495);
}

/// An action that isn't enabled doesn't run off, whatever it assigns.
#[test]
fn before_running_off() {
    let p = logic(&[(0, 9)], &[act(&[row(-4, &[(0, 1)])], &[(0, row(1_000_000, &[]))])]).words();
    near(&p, 0, &[3], 0, -1);
    let mut level = [4];
    assert_eq!(step(&p, 0, &mut level), Stepped::RunsOff(0));
    assert_eq!(rack_step(&p, 0, &mut level), Racked::Moved);
    assert_eq!(level, [16_960]); // 1,000,000 - 15 * 65,536
}

// ---------------------------------------------------------------------------------------------
// The limits

/// Eight variables of the widest range; one guard with this constant and these coefficients.
fn eight_terms(constant: i32, coefficients: [i32; 8]) -> Vec<u32> {
    let terms: Vec<(u32, i32)> = coefficients.iter().enumerate().map(|(v, c)| (v as u32, *c)).collect();
    logic(&[(-8192, 8191); 8], &[act(&[row(constant, &terms)], &[])]).words()
}

/// "low end bits 27..14, high end 13..0, both signed": fourteen bits, so -8,192 to 8,191. A coefficient is at
/// most of magnitude 1,000, and a constant of 1,000,000. So the least value that a guard row can have is
/// -(8 * 1,000 * 8,192 + 1,000,000) = -66,536,000, with all variables at -8,192. With all at 8,191 it is
/// -(8 * 1,000 * 8,191 + 1,000,000) = -66,528,000.
#[test]
fn the_least_values() {
    near(&eight_terms(-1_000_000, [1000; 8]), 0, &[-8192; 8], 0, -66_536_000);
    near(&eight_terms(-1_000_000, [-1000; 8]), 0, &[8191; 8], 0, -66_528_000);
    near(&eight_terms(-1_000_000, [1000; 8]), 0, &[-8191; 8], 0, -66_528_000);
    // Four of each: -(4 * 8,192,000 + 4 * 8,191,000 + 1,000,000)
    let (signs, ends) = ([1000, -1000, 1000, -1000, 1000, -1000, 1000, -1000], [-8192, 8191].repeat(4));
    near(&eight_terms(-1_000_000, signs), 0, &ends, 0, -66_532_000);
    // The constant takes 1,000,000 off: -65,536,000 + 1,000,000 and -65,528,000.
    near(&eight_terms(1_000_000, [1000; 8]), 0, &[-8192; 8], 0, -64_536_000);
    near(&eight_terms(0, [-1000; 8]), 0, &[8191; 8], 0, -65_528_000);
}

/// The least of one variable: -(1,000 * 8,192 + 1,000,000), and near it.
#[test]
fn the_least_values_of_one_variable() {
    near(&guarded(&[row(-1_000_000, &[(0, 1000)])]), 0, &[-8192], 0, -9_192_000);
    near(&guarded(&[row(-1_000_000, &[(0, -1000)])]), 0, &[8191], 0, -9_191_000);
    near(&guarded(&[row(-999_999, &[(0, 999)])]), 0, &[-8192], 0, -9_183_807); // 8,183,808 + 999,999
    near(&guarded(&[row(1_000_000, &[(0, 1000)])]), 0, &[-1001], 0, -1000);
    moves(&guarded(&[row(1_000_000, &[(0, 1000)])]), 0, &[-1000], &[7]);
}

/// The greatest values hold, and with great terms that cancel, a value may be -1 or 0.
#[test]
fn great_and_near() {
    moves(&eight_terms(1_000_000, [-1000; 8]), 0, &[-8192; 8], &[-8192; 8]); // 66,536,000
    let turns = [1000, -1000, 1000, -1000, 1000, -1000, 1000, -1000];
    near(&eight_terms(-1, turns), 0, &[8191; 8], 0, -1);
    moves(&eight_terms(0, turns), 0, &[8191; 8], &[8191; 8]);
    // Each pair is 8,190,000 - 8,191,000, and four of them are -4,000.
    let ends = [8190, 8191].repeat(4);
    near(&eight_terms(3999, turns), 0, &ends, 0, -1);
    moves(&eight_terms(4000, turns), 0, &ends, &ends);
}

// ---------------------------------------------------------------------------------------------
// The rack

/// "Guards are worked out exactly." The value, and what it would be in sixteen bits.
#[test]
fn values_do_not_wrap() {
    for (guard, level, value, wrapped) in [
        (row(-32_768, &[]), 0, -32_768, -32_768),
        (row(-32_769, &[]), 0, -32_769, 32_767),
        (row(-40_000, &[]), 0, -40_000, 25_536),
        (row(-65_535, &[]), 0, -65_535, 1),
        (row(-65_536, &[]), 0, -65_536, 0),
        (row(-65_537, &[]), 0, -65_537, -1),
        (row(-1_000_000, &[]), 0, -1_000_000, -16_960), // 15 * 65,536 is 983,040
        (row(0, &[(0, -1000)]), 40, -40_000, 25_536),
        (row(0, &[(0, 1000)]), -8192, -8_192_000, 0), // 125 * 65,536
        (row(0, &[(0, 1000)]), -8191, -8_191_000, 1000),
        (row(5, &[(0, -8)]), 8191, -65_523, 13),
        (row(-1_000_000, &[(0, 1000)]), -8192, -9_192_000, -16_960),
    ] {
        assert_eq!(value as i16, wrapped, "{guard:?} at {level}");
        let rows = [guard, never(), row(0, &[])];
        near(&guarded_by(&rows, &[0]), 0, &[level], 0, value);
        near(&guarded_by(&rows, &[0, 1]), 0, &[level], 0, value);
        near(&guarded_by(&rows, &[2, 0]), 0, &[level], 1, value);
    }
}

/// Rows that hold are passed over, also those that would fail in sixteen bits.
#[test]
fn rows_before_do_not_wrap() {
    for (guard, level, value, wrapped) in [
        (row(32_768, &[]), 0, 32_768_i64, -32_768),
        (row(40_000, &[]), 0, 40_000, -25_536),
        (row(65_535, &[]), 0, 65_535, -1),
        (row(0, &[(0, 1000)]), 40, 40_000, -25_536),
        (row(0, &[(0, 1000)]), 8191, 8_191_000, -1000),
        (row(0, &[(0, 8)]), 8191, 65_528, -8),
    ] {
        assert_eq!(value as i16, wrapped, "{guard:?} at {level}");
        near(&guarded(&[guard.clone(), row(-3, &[])]), 0, &[level], 1, -3);
        moves(&guarded(&[guard]), 0, &[level], &[7]);
    }
}

// ---------------------------------------------------------------------------------------------
// What stays

/// "with no guard it always is"
#[test]
fn without_guards() {
    let idle = logic(&[(-8192, 8191)], &[act(&[], &[])]).words();
    for level in -8192..=8191 {
        moves(&guarded(&[]), 0, &[level], &[7]);
        moves(&idle, 0, &[level], &[level]);
    }
}

/// "Answers: nothing added." Refusals come before any guard: 8, 9, 10.
#[test]
fn refusals_come_first() {
    let p = guarded(&[never()]);
    near(&p, 0, &[0], 0, -1);
    refuses(&p, 1, &[0], 8, 1);
    refuses(&p, 0, &[], 9, 0);
    refuses(&p, 0, &[0, 0], 9, 2);
    refuses(&p, 0, &[8192], 10, 0);
    refuses(&p[..p.len() - 1], 0, &[0], 2, p.len() as u64 - 1);
}

/// "one that isn't enabled leaves it as it was": Fade at 3, down, up, down, down.
#[test]
fn runs_go_on() {
    let program = read(&FADE).unwrap();
    let states = vec![vec![3], vec![3], vec![8], vec![3], vec![3]];
    assert_eq!(exact_run(&program, &[0, 1, 0, 0], &[3]), (states.clone(), false));
    assert_eq!(rack_run(&program, &[0, 1, 0, 0], &[3]), states);
}

/// "the row test should give the row's value at the state": House's start rows are minus the level and minus
/// the house, its predicates the level minus 1 and the house minus 1.
#[test]
fn values_of_rows() {
    let program = read(&house().words()).unwrap();
    let rows = [&program.start[..], &program.predicates[..]].concat();
    let values = |state: [i32; 2]| rows.iter().map(|row| row.value(&state)).collect::<Vec<_>>();
    assert_eq!(values([0, 0]), [0, 0, -1, -1]);
    assert_eq!(values([1, 1]), [-1, -1, 0, 0]);
    assert_eq!(values([500, 1]), [-500, -1, 499, 0]);
    assert_eq!(values([1000, 0]), [-1000, 0, 999, -1]);
}

// ---------------------------------------------------------------------------------------------
// Sweeps

/// "coefficients times variables, plus the constant", from the row as it was written
fn worth(row: &RowText, state: &[i32]) -> i64 {
    let terms = row.1.iter().map(|(v, c)| i64::from(*c) * i64::from(state[*v as usize]));
    terms.sum::<i64>() + i64::from(row.0)
}

/// How many answers of one step there were: the row is the first, a later one, the last of several; a later
/// row fails as well, with another value; in sixteen bits the value would be at least 0; and those that are
/// enabled, with guards and without.
#[derive(Default, Debug)]
struct Seen {
    first: u32,
    later: u32,
    last: u32,
    others: u32,
    wraps: u32,
    enabled: u32,
    unguarded: u32,
}

impl Seen {
    /// The row and value of an answer, by the plain sentence: the rows before hold, and this one, whose value
    /// it is, is below 0.
    fn not_enabled(&mut self, guards: &[RowText], state: &[i32], row: usize, value: i64) {
        let values: Vec<i64> = guards.iter().map(|row| worth(row, state)).collect();
        assert!(values[..row].iter().all(|value| *value >= 0), "row {row} of {values:?}");
        assert!(values[row] < 0 && values[row] == value, "row {row} of {values:?}, {value}");
        self.first += u32::from(row == 0);
        self.later += u32::from(row > 0);
        self.last += u32::from(row > 0 && row == guards.len() - 1);
        self.others += u32::from(values[row + 1..].iter().any(|other| *other < 0 && *other != value));
        self.wraps += u32::from(value as i16 >= 0);
    }

    /// The action is enabled: all rows hold.
    fn enabled(&mut self, guards: &[RowText], state: &[i32]) {
        assert!(guards.iter().all(|row| worth(row, state) >= 0), "{guards:?} at {state:?}");
        self.enabled += u32::from(!guards.is_empty());
        self.unguarded += u32::from(guards.is_empty());
    }

    fn often(&self, least: u32) -> bool {
        let counts = [self.first, self.later, self.last, self.others, self.enabled, self.unguarded];
        counts.iter().all(|count| *count > least)
    }
}

/// An action on a state, by both steps; not enabled leaves the state.
fn sweep(t: &Text, p: &[u32], k: usize, state: &[i32], seen: &mut [Seen; 2]) {
    let guards = &t.actions[k].guards;
    let (stepped, exact, racked, rack) = both(p, k, state);
    match stepped {
        Stepped::NotEnabled { row, value } => {
            seen[0].not_enabled(guards, state, row, value);
            assert_eq!(exact, state);
        }
        Stepped::Moved | Stepped::RunsOff(_) => seen[0].enabled(guards, state),
        Stepped::Refused(refusal) => panic!("{refusal:?}"),
    }
    match racked {
        Racked::NotEnabled { row, value } => {
            seen[1].not_enabled(guards, state, row, value);
            assert_eq!(rack, state);
        }
        Racked::Moved => seen[1].enabled(guards, state),
        Racked::Refused(refusal) => panic!("{refusal:?}"),
    }
}

/// A state that lies in all ranges, sometimes at their ends.
fn some_state(dice: &mut Dice, vars: &[(i32, i32)]) -> Vec<i32> {
    let value = |(low, high): &(i32, i32)| match dice.below(6) {
        0 => *low,
        1 => *high,
        _ => dice.between(*low, *high),
    };
    vars.iter().map(value).collect()
}

/// Up to a term per variable.
fn some_terms(dice: &mut Dice, vars: usize, most: i32) -> Vec<(u32, i32)> {
    let mut terms = Vec::new();
    for v in 0..vars as u32 {
        let coefficient = dice.between(-most, most);
        if coefficient != 0 && dice.below(3) > 0 {
            terms.push((v, coefficient));
        }
    }
    terms
}

/// A row of great numbers, or one that is worth -3 to 12 at the state: the terms are at most 8 * 9 * 8,192.
fn some_guard(dice: &mut Dice, state: &[i32]) -> RowText {
    if dice.below(5) == 0 {
        return (dice.between(-1_000_000, 1_000_000), some_terms(dice, state.len(), 1000));
    }
    let terms = (0, some_terms(dice, state.len(), 9));
    (dice.between(-3, 12) - worth(&terms, state) as i32, terms.1)
}

/// One to eight variables and one to four actions, each with none to eight guards, and a state near which
/// most guards turn.
fn guards_by_chance(seed: u64) -> (Text, Vec<i32>) {
    let mut dice = Dice::new(seed + 80_000);
    let mut t = Text::default();
    for _ in 0..1 + dice.below(8) {
        let narrow = (dice.between(-20, 0), dice.between(0, 20));
        t.vars.push([narrow, (-8192, 8191)][dice.below(2) as usize]);
    }
    let state = some_state(&mut dice, &t.vars);
    for _ in 0..1 + dice.below(4) {
        let guards = (0..dice.below(9)).map(|_| some_guard(&mut dice, &state)).collect();
        let variable = dice.below(t.vars.len() as u32);
        t.actions.push(ActionText { guards, sets: vec![(variable, row(dice.between(-9, 9), &[(0, 1)]))] });
    }
    (t, state)
}

/// The state itself, states that differ from it in one variable, and any others.
fn states_near(dice: &mut Dice, t: &Text, state: &[i32]) -> Vec<Vec<i32>> {
    let mut states = vec![state.to_vec()];
    for (v, (low, high)) in t.vars.iter().enumerate() {
        let mut other = state.to_vec();
        other[v] = (other[v] + dice.between(-1, 1)).clamp(*low, *high);
        states.push(other);
    }
    (0..4).for_each(|_| states.push(some_state(dice, &t.vars)));
    states
}

#[test]
fn rows_and_values_by_chance() {
    let mut seen = [Seen::default(), Seen::default()];
    for seed in 0..4000 {
        let (t, state) = guards_by_chance(seed);
        let p = t.words();
        let mut dice = Dice::new(seed + 90_000);
        for state in states_near(&mut dice, &t, &state) {
            (0..t.actions.len()).for_each(|k| sweep(&t, &p, k, &state, &mut seen));
        }
    }
    println!("{seen:?}");
    assert!(seen.iter().all(|step| step.often(5000) && step.wraps > 5000));
}

/// All states of a program.
fn all_states(t: &Text) -> Vec<Vec<i32>> {
    t.vars.iter().fold(vec![vec![]], |states, (low, high)| {
        let longer = |state: Vec<i32>| (*low..=*high).map(move |v| [&state[..], &[v]].concat());
        states.into_iter().flat_map(longer).collect()
    })
}

/// Small programs, every action on every state.
#[test]
fn rows_and_values_of_all_states() {
    let mut seen = [Seen::default(), Seen::default()];
    for seed in 0..600 {
        let (t, _) = small(seed);
        let p = t.words();
        for state in all_states(&t) {
            (0..t.actions.len()).for_each(|k| sweep(&t, &p, k, &state, &mut seen));
        }
    }
    println!("{seen:?}");
    assert!(seen.iter().all(|step| step.often(1000)));
}
