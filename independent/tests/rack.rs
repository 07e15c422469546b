//! Request 4, "The rack's sixteen bits": steps and runs worked out by hand, every refusal, and sweeps beside
//! the exact values modulo 65,536.


use independent::program::{read, Program};
use independent::shows::*;
use independent::words::*;
use independent::*;

// ---------------------------------------------------------------------------------------------
// Exact values in 128 bits, from the rows as they were written

/// The number modulo 65,536, read as two's complement.
fn wrapped(exact: i128) -> i32 {
    let rest = exact.rem_euclid(65_536);
    (if rest >= 32_768 { rest - 65_536 } else { rest }) as i32
}

/// "its value (coefficients times variables, plus the constant)"
fn exact_value(row: &RowText, state: &[i32]) -> i128 {
    let terms = row.1.iter().map(|(v, c)| i128::from(*c) * i128::from(state[*v as usize]));
    i128::from(row.0) + terms.sum::<i128>()
}

fn enabled(action: &ActionText, state: &[i32]) -> bool {
    action.guards.iter().all(|row| exact_value(row, state) >= 0)
}

/// What both steps answer where the action is not enabled: "the number of the first guard row that fails and
/// its value".
fn not_enabled(action: &ActionText, state: &[i32]) -> (Stepped, Racked) {
    let row = action.guards.iter().position(|row| exact_value(row, state) < 0).unwrap();
    let value = exact_value(&action.guards[row], state) as i64;
    (Stepped::NotEnabled { row, value }, Racked::NotEnabled { row, value })
}

/// The exact value of each variable after an enabled action.
fn afterwards(action: &ActionText, state: &[i32]) -> Vec<i128> {
    let mut values: Vec<i128> = state.iter().map(|v| i128::from(*v)).collect();
    for (variable, row) in &action.sets {
        values[*variable as usize] = exact_value(row, state);
    }
    values
}

/// The lowest variable whose value is off its range.
fn off(t: &Text, values: &[i128]) -> Option<usize> {
    let on = |((low, high), v): (&(i32, i32), &i128)| (i128::from(*low)..=i128::from(*high)).contains(v);
    t.vars.iter().zip(values).position(|pair| !on(pair))
}

/// What both steps answer and leave.
type Both = (Stepped, Vec<i32>, Racked, Vec<i32>);

fn expected(t: &Text, k: usize, state: &[i32]) -> Both {
    let action = &t.actions[k];
    let old = state.to_vec();
    if !enabled(action, state) {
        let (stepped, racked) = not_enabled(action, state);
        return (stepped, old.clone(), racked, old);
    }
    let values = afterwards(action, state);
    // Values that are not assigned lie on ranges of fourteen bits, so that they read back as they are.
    let rack = values.iter().map(|v| wrapped(*v)).collect();
    match off(t, &values) {
        Some(variable) => (Stepped::RunsOff(variable), old, Racked::Moved, rack),
        None => (Stepped::Moved, values.iter().map(|v| *v as i32).collect(), Racked::Moved, rack),
    }
}

fn both(words: &[u32], k: usize, state: &[i32]) -> Both {
    let (mut exact, mut rack) = (state.to_vec(), state.to_vec());
    let stepped = step(words, k, &mut exact);
    let racked = rack_step(words, k, &mut rack);
    (stepped, exact, racked, rack)
}

fn racked(words: &[u32], k: usize, state: &[i32]) -> (Racked, Vec<i32>) {
    let mut rack = state.to_vec();
    (rack_step(words, k, &mut rack), rack)
}

fn refused(number: u32, value: u64) -> Racked {
    Racked::Refused(Refusal { number, value })
}

fn logic(vars: &[(i32, i32)], actions: &[ActionText]) -> Text {
    Text { vars: vars.to_vec(), actions: actions.to_vec(), ..Text::default() }
}

/// A single variable of the widest range, and an action without guard that assigns this row to it.
fn single(assigned: RowText) -> Text {
    logic(&[(-8192, 8191)], &[act(&[], &[(0, assigned)])])
}

/// The rack moves the single variable from one value to the other; so does 128-bit arithmetic.
fn writes(assigned: RowText, old: i32, exact: i128, new: i32) {
    assert_eq!((exact_value(&assigned, &[old]), wrapped(exact)), (exact, new), "{assigned:?} at {old}");
    let t = single(assigned);
    assert_eq!(racked(&t.words(), 0, &[old]), (Racked::Moved, vec![new]), "{t:?} at {old}");
    assert_eq!(both(&t.words(), 0, &[old]), expected(&t, 0, &[old]));
}

// ---------------------------------------------------------------------------------------------
// The incident

/// Level 0..1000; the action takes 10 off, with no guard.
const INCIDENT: [u32; 8] = [
    0x100003E8, 0x40000000, 0x50000000, 0x60000001, 0x70000000, 0x2FFFFFF6, 0x30000001, 0xF0000000,
];

/// "writes the wrapped values even where the exact step runs off"
#[test]
fn the_incident() {
    let mut level = [5];
    assert_eq!(step(&INCIDENT, 0, &mut level), Stepped::RunsOff(0));
    assert_eq!(level, [5]);
    assert_eq!(rack_step(&INCIDENT, 0, &mut level), Racked::Moved);
    assert_eq!(level, [-5]);
    // "a state value off its range": 10 with the lowest variable; the state is left.
    assert_eq!(rack_step(&INCIDENT, 0, &mut level), refused(10, 0));
    assert_eq!(level, [-5]);
    assert_eq!(both(&INCIDENT, 0, &[10]), (Stepped::Moved, vec![0], Racked::Moved, vec![0]));
}

/// The run ends where it runs off; the rack goes on.
#[test]
fn the_run_of_the_incident() {
    let program = read(&INCIDENT).unwrap();
    assert_eq!(exact_run(&program, &[0, 0, 0], &[15]), (vec![vec![15], vec![5]], true));
    assert_eq!(rack_run(&program, &[0, 0, 0], &[15]), [[15], [5], [-5], [-15]]);
    assert_eq!(exact_run(&program, &[0], &[15]), (vec![vec![15], vec![5]], false));
    assert_eq!(exact_run(&program, &[], &[5]), (vec![vec![5]], false));
    assert_eq!(rack_run(&program, &[], &[5]), [[5]]);
}

// ---------------------------------------------------------------------------------------------
// Guards

/// "level at least 5" at 4, where it is worth 4 - 5, and "at most 995" at 996, worth 995 - 996.
#[test]
fn a_guard_that_fails() {
    let near = |row: usize| Racked::NotEnabled { row, value: -1 };
    assert_eq!(racked(&FADE, 0, &[4]), (near(0), vec![4]));
    assert_eq!(racked(&FADE, 0, &[5]), (Racked::Moved, vec![0]));
    assert_eq!(racked(&FADE, 1, &[996]), (near(0), vec![996]));
    assert_eq!(racked(&FADE, 1, &[995]), (Racked::Moved, vec![1000]));
    // One of two fails, whichever.
    for (guards, failing) in [([never(), row(0, &[])], 0), ([row(0, &[]), never()], 1)] {
        let t = logic(&[(0, 9)], &[act(&guards, &[(0, row(7, &[]))])]);
        assert_eq!(racked(&t.words(), 0, &[3]), (near(failing), vec![3]));
    }
}

/// "Guards are worked out exactly." In sixteen bits each of these would be the other way round.
#[test]
fn guards_do_not_wrap() {
    for (guard, level, value) in [
        (row(40_000, &[]), 0, 40_000),
        (row(-40_000, &[]), 0, -40_000),
        (row(0, &[(0, 1000)]), 40, 40_000),
        (row(0, &[(0, -1000)]), 40, -40_000),
        (row(-1_000_000, &[(0, 1000)]), 8191, 7_191_000), // is 109 * 65,536 + 47,576
        (row(1_000_000, &[(0, -1000)]), 8191, -7_191_000),
        (row(1_000_000, &[(0, 1000)]), -1048, -48_000), // would be 17,536
        (row(-65_536, &[]), 0, -65_536),                // would be 0
    ] {
        let holds = value >= 0;
        assert_eq!(exact_value(&guard, &[level]), i128::from(value));
        assert_ne!(wrapped(i128::from(value)) >= 0, holds);
        let t = logic(&[(-8192, 8191)], &[act(&[guard], &[(0, row(1, &[]))])]);
        let near = Racked::NotEnabled { row: 0, value };
        let after = if holds { (Racked::Moved, vec![1]) } else { (near, vec![level]) };
        assert_eq!(racked(&t.words(), 0, &[level]), after, "{t:?} at {level}");
    }
}

// ---------------------------------------------------------------------------------------------
// Products, sums and constants

/// 8,192,000 is 125 * 65,536.
#[test]
fn products_that_wrap() {
    let times = |c: i32| row(0, &[(0, c)]);
    writes(times(1000), 8191, 8_191_000, -1000);
    writes(times(1000), 8190, 8_190_000, -2000);
    writes(times(999), 8191, 8_182_809, -9191);
    writes(times(1000), -8192, -8_192_000, 0);
    writes(times(1000), -8191, -8_191_000, 1000);
    writes(times(40), 1000, 40_000, -25_536);
    writes(times(8), 8191, 65_528, -8);
    writes(times(16), 4096, 65_536, 0);
    // The ends of what sixteen bits hold.
    writes(times(7), 4681, 32_767, 32_767);
    writes(times(8), 4096, 32_768, -32_768);
    writes(times(33), 993, 32_769, -32_767);
    writes(times(4), -8192, -32_768, -32_768);
    writes(times(9), -3641, -32_769, 32_767);
}

#[test]
fn negative_coefficients() {
    let times = |c: i32| row(0, &[(0, c)]);
    writes(times(-1), 5, -5, -5);
    writes(times(-1), -5, 5, 5);
    writes(times(-1), -8192, 8192, 8192);
    writes(times(-3), 7, -21, -21);
    writes(times(-1000), 8191, -8_191_000, 1000);
    writes(times(-1000), -8192, 8_192_000, 0);
    writes(times(-999), 8191, -8_182_809, 9191);
    writes(row(100, &[(0, -2)]), 30, 40, 40);
    writes(row(-100, &[(0, -1000)]), 33, -33_100, 32_436);
}

#[test]
fn constants_that_are_cut() {
    for (constant, new) in [
        (1_000_000, 16_960), // 15 * 65,536 is 983,040
        (-1_000_000, -16_960),
        (999_999, 16_959),
        (65_536, 0),
        (-65_536, 0),
        (65_535, -1),
        (-65_535, 1),
        (32_767, 32_767),
        (32_768, -32_768),
        (-32_768, -32_768),
        (-32_769, 32_767),
        (0, 0),
    ] {
        writes(row(constant, &[]), 77, i128::from(constant), new);
    }
    writes(row(1_000_000, &[(0, 1)]), 40, 1_000_040, 17_000);
    writes(row(-1_000_000, &[(0, 1000)]), 1000, 0, 0);
    writes(row(-1_000_000, &[(0, 1000)]), 1001, 1000, 1000);
    writes(row(-1_000_000, &[(0, -1000)]), 8191, -9_191_000, -15_960);
}

/// Up to eight variables of 8191 each, which are 65,528.
#[test]
fn sums_that_wrap() {
    let sum = |constant: i32, coefficients: &[i32]| {
        let terms: Vec<(u32, i32)> = coefficients.iter().enumerate().map(|(v, c)| (v as u32, *c)).collect();
        logic(&[(-8192, 8191); 8], &[act(&[], &[(7, row(constant, &terms))])])
    };
    for (t, state, exact, new) in [
        (sum(0, &[1; 8]), [8191; 8], 65_528, -8),
        (sum(8, &[1; 8]), [8191; 8], 65_536, 0),
        (sum(0, &[1; 5]), [8191; 8], 40_955, -24_581),
        (sum(0, &[1; 8]), [1000; 8], 8_000, 8_000),
        (sum(0, &[-1; 8]), [8191; 8], -65_528, 8),
        (sum(16_386, &[1, 1]), [8191; 8], 32_768, -32_768),
        (sum(16_385, &[1, 1]), [8191; 8], 32_767, 32_767),
        (sum(0, &[1000; 8]), [8191; 8], 65_528_000, -8_000),
        (sum(1_000_000, &[1000; 8]), [8191; 8], 66_528_000, 8_960),
        (sum(-1_000_000, &[-1000; 8]), [8191; 8], -66_528_000, -8_960),
        (sum(0, &[1000, -1000]), [8191; 8], 0, 0),
        (sum(3, &[1000, -999, -1]), [8191; 8], 3, 3),
    ] {
        assert_eq!((afterwards(&t.actions[0], &state)[7], wrapped(exact)), (exact, new));
        let mut after = state.to_vec();
        after[7] = new;
        assert_eq!(racked(&t.words(), 0, &state), (Racked::Moved, after), "{t:?}");
    }
}

// ---------------------------------------------------------------------------------------------
// What is written

/// "Its assignments use the old values and happen at once; other variables keep theirs."
#[test]
fn at_once() {
    let x = |constant: i32| row(constant, &[(0, 1)]);
    let y = |constant: i32| row(constant, &[(1, 1)]);
    let t = logic(
        &[(0, 1000), (0, 1000), (-3, 3)],
        &[
            act(&[], &[(0, y(0)), (1, x(0))]),
            act(&[], &[(0, x(1)), (1, x(0))]),
            act(&[], &[(0, y(-10)), (1, x(65_536))]),
            act(&[], &[]),
        ],
    );
    let p = t.words();
    assert_eq!(racked(&p, 0, &[3, 7, -2]), (Racked::Moved, vec![7, 3, -2]));
    assert_eq!(racked(&p, 1, &[3, 7, -2]), (Racked::Moved, vec![4, 3, -2]));
    // 7 - 10 and 3 + 65,536
    let answers = (Stepped::RunsOff(0), vec![3, 7, -2], Racked::Moved, vec![-3, 3, -2]);
    assert_eq!(both(&p, 2, &[3, 7, -2]), answers);
    assert_eq!(racked(&p, 3, &[3, 7, -2]), (Racked::Moved, vec![3, 7, -2]));
    // demo's action 1 is x, y := y + 5, x - 5.
    assert_eq!(racked(&demo().words(), 1, &[9, -2]), (Racked::Moved, vec![3, 4]));
}

/// The rack's value lies on the range and looks innocent, where the exact one runs off.
#[test]
fn back_into_the_range() {
    let mut level = [5];
    let p = logic(&[(0, 1000)], &[act(&[], &[(0, row(65_536, &[(0, 1)]))])]).words();
    assert_eq!(step(&p, 0, &mut level), Stepped::RunsOff(0)); // 65,541
    assert_eq!(rack_step(&p, 0, &mut level), Racked::Moved);
    assert_eq!(level, [5]);
    // No later call notices.
    assert_eq!(rack_step(&p, 0, &mut level), Racked::Moved);
    assert_eq!(level, [5]);
    for (assigned, old, exact, new) in [
        (row(-65_536, &[(0, 1)]), 5, -65_531, 5),
        (row(0, &[(0, 1000)]), 8191, 8_191_000, -1000),
        (row(1_000_000, &[(0, -10)]), 1701, 982_990, -50),
        (row(999_424, &[(0, -2)]), 8191, 983_042, 2),
    ] {
        writes(assigned.clone(), old, exact, new);
        let t = single(assigned);
        assert_eq!(both(&t.words(), 0, &[old]).0, Stepped::RunsOff(0));
        assert!(off(&t, &[i128::from(new)]).is_none());
    }
}

/// A value one past each end, which the rack stores; all assigned variables are written, those on their
/// ranges too.
#[test]
fn one_past_the_end() {
    let up = |v: u32| (v, row(1, &[(v, 1)]));
    let down = |v: u32| (v, row(-1, &[(v, 1)]));
    let t = logic(&[(0, 5); 3], &[act(&[], &[up(0), up(1), down(2)])]);
    let p = t.words();
    assert_eq!(both(&p, 0, &[0, 5, 3]), (Stepped::RunsOff(1), vec![0, 5, 3], Racked::Moved, vec![1, 6, 2]));
    assert_eq!(racked(&p, 0, &[1, 6, 2]), (refused(10, 1), vec![1, 6, 2]));
    assert_eq!(both(&p, 0, &[0, 4, 0]), (Stepped::RunsOff(2), vec![0, 4, 0], Racked::Moved, vec![1, 5, -1]));
    assert_eq!(racked(&p, 0, &[1, 5, -1]), (refused(10, 2), vec![1, 5, -1]));
}

// ---------------------------------------------------------------------------------------------
// Refusals

/// The rack refuses so, as step does, and both leave the state.
fn refuses(words: &[u32], k: usize, state: &[i32], number: u32, value: u64) {
    let refusal = Refusal { number, value };
    let left = state.to_vec();
    let answers = (Stepped::Refused(refusal), left.clone(), Racked::Refused(refusal), left);
    assert_eq!(both(words, k, state), answers);
}

/// A program of Fade's words with one changed.
fn fade_with(at: usize, word: u32) -> Vec<u32> {
    let mut words = FADE.to_vec();
    words[at] = word;
    words
}

/// 2 to 4: the word's index, "list length if missing". The action, the length and the state's value are bad
/// as well, and come later.
#[test]
fn refusals_2_to_4() {
    let state = [-1, 70_000];
    let after_end = [&FADE[..], &[0xF0000000]].concat();
    for (words, value) in [
        (vec![], 0),
        (FADE[..3].to_vec(), 3),
        (FADE[..15].to_vec(), 15),
        (after_end, 16),
        (fade_with(0, 0x400003E8), 0),  // VAR of another kind
        (fade_with(3, 0x60000111), 3),  // bit 8 of ACTION
        (fade_with(5, 0x30010001), 5),  // bit 16 of TERM
        (fade_with(15, 0xF0000001), 15), // END with a payload
    ] {
        refuses(&words, 2, &state, 2, value);
    }
    let nine = [&[0x100003E8; 9], &FADE[1..]].concat();
    let actions = [&FADE[..3], &[0x60000000; 17], &FADE[15..]].concat();
    let counts = [(fade_with(1, 0x40000009), 1), (fade_with(2, 0x5000000F), 2)];
    for (words, value) in counts.into_iter().chain([(nine, 8), (actions, 19)]) {
        refuses(&words, 17, &state, 3, value);
    }
    for (words, value) in [
        (fade_with(0, var_word(8, 7)), 0),
        (fade_with(4, row_word(1_000_001)), 4),
        (fade_with(5, term_word(0, 1001)), 5),
        (fade_with(5, term_word(0, 0)), 5),
        (fade_with(5, term_word(1, 1)), 5),
        (fade_with(6, 0x70000001), 6),
        ([&FADE[..15], &[0x80000001, 0xF0000000]].concat(), 15),
    ] {
        refuses(&words, 2, &state, 4, value);
    }
}

/// 8 before 9, with the number; 9 before 10, with the length.
#[test]
fn refusals_8_and_9() {
    for state in [&[][..], &[5], &[-1], &[5, 5]] {
        refuses(&FADE, 2, state, 8, 2);
        refuses(&FADE, usize::MAX, state, 8, usize::MAX as u64);
    }
    let none = logic(&[(0, 9)], &[]).words();
    refuses(&none, 0, &[5], 8, 0);
    for k in 0..2 {
        refuses(&FADE, k, &[], 9, 0);
        refuses(&FADE, k, &[5, 5], 9, 2);
        refuses(&FADE, k, &[-1, 5, 5], 9, 3);
    }
}

/// 10 with the lowest variable, before any guard. The test is of the value as lent and not of sixteen bits:
/// 65,541 is no 5.
#[test]
fn refusal_10() {
    for value in [-1, 1001, -5, 65_541, -65_531, 65_536, i32::MIN, i32::MAX] {
        refuses(&FADE, 0, &[value], 10, 0);
        refuses(&FADE, 1, &[value], 10, 0);
    }
    let t = logic(&[(0, 5), (-5, 5), (7, 7)], &[act(&[never()], &[(0, row(0, &[]))])]);
    let p = t.words();
    refuses(&p, 0, &[6, 6, 6], 10, 0);
    refuses(&p, 0, &[5, -6, 6], 10, 1);
    refuses(&p, 0, &[5, -5, 6], 10, 2);
    refuses(&p, 0, &[-1, 0, 7], 10, 0);
    let near = Racked::NotEnabled { row: 0, value: -1 }; // `never` is worth -1
    assert_eq!(racked(&p, 0, &[5, -5, 7]), (near, vec![5, -5, 7]));
    // The state need not meet the start rows.
    let mut started = single(row(1, &[(0, 1)]));
    started.init = vec![never()];
    assert_eq!(racked(&started.words(), 0, &[4]), (Racked::Moved, vec![5]));
}

// ---------------------------------------------------------------------------------------------
// Sweeps

/// Coefficient, value and constant on a grid with all their ends.
#[test]
fn a_grid_of_products() {
    let ends = [-8191, -4097, -4096, -1, 0, 1, 4096, 8191];
    let values: Vec<i32> = (-8192..=8191).step_by(431).chain(ends).collect();
    for coefficient in (-1000..=1000).step_by(37).chain([-1, 1, 2, 16, 64, 512, 999, 1000]) {
        for constant in [-1_000_000, -65_536, -32_769, -1, 0, 32_767, 32_768, 65_535, 1_000_000] {
            let t = single(row(constant, &[(0, coefficient)]));
            let p = t.words();
            for value in &values {
                assert_eq!(both(&p, 0, &[*value]), expected(&t, 0, &[*value]), "{t:?} at {value}");
            }
        }
    }
}

/// A row of small numbers or of great ones.
fn wide_row(dice: &mut Dice, vars: usize) -> RowText {
    let great = dice.below(3) == 0;
    let constant = match dice.below(8) {
        0 if great => 1_000_000,
        1 if great => -1_000_000,
        2 => 65_536 * dice.between(-15, 15) + dice.between(-9, 9),
        _ if great => dice.between(-1_000_000, 1_000_000),
        _ => dice.between(-9, 9),
    };
    let most = if great { 1000 } else { 2 };
    let mut terms = Vec::new();
    for v in 0..vars as u32 {
        let coefficient = dice.between(-most, most);
        if coefficient != 0 && dice.below(2) == 0 {
            terms.push((v, coefficient));
        }
    }
    (constant, terms)
}

/// One to eight variables, narrow or of the widest range, and one to four actions.
fn wide(seed: u64) -> Text {
    let mut dice = Dice::new(seed + 40_000);
    let vars = 1 + dice.below(8) as usize;
    let mut t = Text::default();
    for _ in 0..vars {
        let narrow = (dice.between(-20, 0), dice.between(0, 20));
        let any = (dice.between(-8192, 0), dice.between(0, 8191));
        t.vars.push([narrow, any, (-8192, 8191)][dice.below(3) as usize]);
    }
    for _ in 0..1 + dice.below(4) {
        let guards = (0..dice.below(3)).map(|_| wide_row(&mut dice, vars)).collect();
        let mut action = ActionText { guards, sets: vec![] };
        for v in 0..vars as u32 {
            if dice.below(3) == 0 {
                action.sets.push((v, wide_row(&mut dice, vars)));
            }
        }
        t.actions.push(action);
    }
    t
}

/// A state that lies in all ranges, sometimes at their ends.
fn some_state(dice: &mut Dice, t: &Text) -> Vec<i32> {
    let value = |(low, high): &(i32, i32)| match dice.below(6) {
        0 => *low,
        1 => *high,
        _ => dice.between(*low, *high),
    };
    t.vars.iter().map(value).collect()
}

/// How many steps of the kinds there were; innocent are those where the rack's values lie on all ranges and
/// the exact ones don't.
#[derive(Default, Debug)]
struct Seen {
    moved: u32,
    not_enabled: u32,
    runs_off: u32,
    innocent: u32,
}

/// The step against 128 bits, and against step where that doesn't run off.
fn sweep_step(t: &Text, p: &[u32], k: usize, state: &[i32], seen: &mut Seen) {
    let (stepped, exact, racked, rack) = both(p, k, state);
    assert_eq!((stepped, exact.clone(), racked, rack.clone()), expected(t, k, state), "{t:?} {k} {state:?}");
    match stepped {
        Stepped::Moved => {
            seen.moved += 1;
            assert_eq!((racked, &rack), (Racked::Moved, &exact));
        }
        Stepped::NotEnabled { row, value } => {
            seen.not_enabled += 1;
            assert_eq!((racked, &rack), (Racked::NotEnabled { row, value }, &exact));
        }
        Stepped::RunsOff(_) => {
            seen.runs_off += 1;
            let values: Vec<i128> = rack.iter().map(|v| i128::from(*v)).collect();
            seen.innocent += u32::from(off(t, &values).is_none());
        }
        Stepped::Refused(refusal) => panic!("{refusal:?}"),
    }
}

#[test]
fn steps_by_chance() {
    let mut seen = Seen::default();
    for seed in 0..3000 {
        let t = wide(seed);
        let p = t.words();
        let mut dice = Dice::new(seed + 50_000);
        for _ in 0..12 {
            let state = some_state(&mut dice, &t);
            (0..t.actions.len()).for_each(|k| sweep_step(&t, &p, k, &state, &mut seen));
        }
    }
    println!("{seen:?}");
    assert!(seen.moved > 5000 && seen.not_enabled > 5000 && seen.runs_off > 5000 && seen.innocent > 500);
}

/// All states of a program.
fn all_states(t: &Text) -> Vec<Vec<i32>> {
    t.vars.iter().fold(vec![vec![]], |states, (low, high)| {
        let longer = |state: Vec<i32>| (*low..=*high).map(move |v| [&state[..], &[v]].concat());
        states.into_iter().flat_map(longer).collect()
    })
}

/// Small programs, every action on every state.
#[test]
fn steps_of_all_states() {
    let mut seen = Seen::default();
    for seed in 0..600 {
        let (t, _) = small(seed);
        let p = t.words();
        for state in all_states(&t) {
            (0..t.actions.len()).for_each(|k| sweep_step(&t, &p, k, &state, &mut seen));
        }
    }
    println!("{seen:?}");
    assert!(seen.moved > 5000 && seen.not_enabled > 5000 && seen.runs_off > 1000);
}

// ---------------------------------------------------------------------------------------------
// Runs

/// "one that isn't enabled leaves it as it was": Fade at 5, down twice and up.
#[test]
fn runs_of_fade() {
    let program = read(&FADE).unwrap();
    let states = vec![vec![5], vec![0], vec![0], vec![5]];
    assert_eq!(rack_run(&program, &[0, 0, 1], &[5]), states);
    assert_eq!(exact_run(&program, &[0, 0, 1], &[5]), (states, false));
}

/// Doubling: 5000 times a power of two, modulo 65,536. The range is left with the first.
#[test]
fn a_run_that_doubles() {
    let program = read(&single(row(0, &[(0, 2)])).words()).unwrap();
    let by_hand = [
        5000, 10_000, 20_000, -25_536, 14_464, 28_928, -7680, -15_360, -30_720, 4096, 8192, 16_384, -32_768,
        0, 0,
    ];
    let states = rack_run(&program, &[0; 14], &[5000]);
    assert_eq!(states.concat(), by_hand);
    for (n, state) in states.iter().enumerate() {
        assert_eq!(state[0], wrapped(5000 << n));
    }
    assert_eq!(exact_run(&program, &[0; 14], &[5000]), (vec![vec![5000]], true));
    assert_eq!(exact_run(&program, &[0; 14], &[2000]), (vec![vec![2000], vec![4000], vec![8000]], true));
}

/// Guards are worked out on the values as read: from -25,536 "at least 0" fails, and the run stays there.
#[test]
fn guards_of_a_run() {
    let t = logic(&[(0, 8000)], &[act(&[row(0, &[(0, 1)])], &[(0, row(0, &[(0, 8)]))])]);
    let program = read(&t.words()).unwrap();
    assert_eq!(rack_run(&program, &[0, 0, 0, 0], &[625]), [[625], [5000], [-25_536], [-25_536], [-25_536]]);
    // Exactly: 1000 times 10,000 would be -27,008 in sixteen bits, and 1000 times -25,536 would be 23,040.
    let double = act(&[row(0, &[(0, 1000)])], &[(0, row(0, &[(0, 2)]))]);
    let seven = act(&[row(0, &[(0, -1000)])], &[(0, row(7, &[]))]);
    let program = read(&logic(&[(-8192, 8191)], &[double, seven]).words()).unwrap();
    let states = [[5000], [5000], [10_000], [20_000], [20_000], [-25_536], [-25_536], [7]];
    assert_eq!(rack_run(&program, &[1, 0, 0, 1, 0, 0, 1], &[5000]), states);
}

/// The rack's run by 128 bits.
fn expected_rack_run(t: &Text, actions: &[usize], state: &[i32]) -> Vec<Vec<i32>> {
    let mut states = vec![state.to_vec()];
    for k in actions {
        let mut now = states.last().unwrap().clone();
        if enabled(&t.actions[*k], &now) {
            now = afterwards(&t.actions[*k], &now).iter().map(|v| wrapped(*v)).collect();
        }
        states.push(now);
    }
    states
}

/// The run of 01 by 128 bits.
fn expected_exact_run(t: &Text, actions: &[usize], state: &[i32]) -> (Vec<Vec<i32>>, bool) {
    let mut states = vec![state.to_vec()];
    for k in actions {
        let mut now = states.last().unwrap().clone();
        if enabled(&t.actions[*k], &now) {
            let values = afterwards(&t.actions[*k], &now);
            if off(t, &values).is_some() {
                return (states, true);
            }
            now = values.iter().map(|v| *v as i32).collect();
        }
        states.push(now);
    }
    (states, false)
}

/// The states that the second step leaves when called for each action, until it refuses.
fn called(p: &[u32], actions: &[usize], state: &[i32]) -> Vec<Vec<i32>> {
    let mut states = vec![state.to_vec()];
    for k in actions {
        let mut next = states.last().unwrap().clone();
        if let Racked::Refused(refusal) = rack_step(p, *k, &mut next) {
            assert_eq!(refusal.number, 10);
            break;
        }
        states.push(next);
    }
    states
}

/// Both runs of a list of actions; whether the exact one ran off. Up to there the two are the same.
fn sweep_run(t: &Text, p: &[u32], program: &Program, actions: &[usize], state: &[i32]) -> bool {
    let rack = rack_run(program, actions, state);
    let (exact, ran_off) = exact_run(program, actions, state);
    assert_eq!(rack, expected_rack_run(t, actions, state), "{t:?} {state:?} {actions:?}");
    let expected = expected_exact_run(t, actions, state);
    assert_eq!((&exact, ran_off), (&expected.0, expected.1), "{t:?} {state:?} {actions:?}");
    assert_eq!(rack.len(), actions.len() + 1);
    assert_eq!(rack[..exact.len()], exact);
    assert_eq!(ran_off, exact.len() < rack.len());
    let calls = called(p, actions, state);
    assert_eq!(rack[..calls.len()], calls);
    assert!(calls.len() >= exact.len());
    ran_off
}

fn some_actions(dice: &mut Dice, t: &Text, most: u32) -> Vec<usize> {
    let count = if t.actions.is_empty() { 0 } else { dice.below(most + 1) };
    (0..count).map(|_| dice.below(t.actions.len() as u32) as usize).collect()
}

#[test]
fn runs_by_chance() {
    let (mut ran_off, mut whole) = (0, 0);
    for seed in 0..2000 {
        let t = if seed % 2 == 0 { wide(seed) } else { small(seed).0 };
        let p = t.words();
        let program = read(&p).unwrap();
        let mut dice = Dice::new(seed + 60_000);
        for _ in 0..10 {
            let state = some_state(&mut dice, &t);
            let actions = some_actions(&mut dice, &t, 12);
            if sweep_run(&t, &p, &program, &actions, &state) {
                ran_off += 1;
            } else {
                whole += 1;
            }
        }
    }
    println!("{ran_off} ran off, {whole} did not");
    assert!(ran_off > 3000 && whole > 3000);
}

/// "after a safe verdict, from any start state and along any run of actions, the rack's values equal the
/// exact ones at every step."
#[test]
fn safe_shows() {
    let mut shows: Vec<(Text, Vec<u32>)> = (0..900).map(small).collect();
    shows.push((house(), house_lemmas().concat()));
    let (mut safe, mut runs, mut changes) = (0, 0, 0);
    for (seed, (t, lemmas)) in shows.iter().enumerate() {
        let p = t.words();
        let (mut graph, mut path) = (vec![0; GRAPH_WORDS], vec![0; PATH_WORDS]);
        if !matches!(judge(&p, lemmas, &mut graph, &mut path), Judged::Safe { .. }) {
            continue;
        }
        safe += 1;
        let program = read(&p).unwrap();
        let mut dice = Dice::new(seed as u64 + 70_000);
        let start = |state: &Vec<i32>| t.init.iter().all(|row| exact_value(row, state) >= 0);
        for state in all_states(t).into_iter().filter(start) {
            for _ in 0..8 {
                let actions = some_actions(&mut dice, t, 15);
                assert!(!sweep_run(t, &p, &program, &actions, &state), "seed {seed} {state:?} {actions:?}");
                let states = called(&p, &actions, &state);
                assert_eq!(states.len(), actions.len() + 1);
                runs += 1;
                changes += states.windows(2).filter(|two| two[0] != two[1]).count();
            }
        }
    }
    println!("{safe} safe shows, {runs} runs, {changes} changes of state");
    assert!(safe > 50 && runs > 5000 && changes > 5000);
}

/// Fade, which is safe and has no start rows, from every level.
#[test]
fn fade_is_safe_in_the_rack() {
    let program = read(&FADE).unwrap();
    for level in 0..=1000 {
        for actions in [[0; 8], [1; 8], [0, 1, 0, 0, 1, 1, 1, 0]] {
            let (states, ran_off) = exact_run(&program, &actions, &[level]);
            assert!(!ran_off);
            assert_eq!(rack_run(&program, &actions, &[level]), states);
        }
    }
}
