use super::dice::Dice;
use super::*;
use crate::show::model::{COEFFICIENT, CONSTANT, HIGHEST, LOWEST, MULTIPLIER};
use crate::show::rows::VARIABLES;

fn row(constant: i64, terms: &[i64]) -> Row {
    let mut row = Row::constant(constant);
    row.coefficients[..terms.len()].copy_from_slice(terms);
    row
}

fn range(low: i64, high: i64) -> Range {
    Range { low, high }
}

/// Every state of the ranges.
fn states(ranges: &[Range]) -> Vec<Vec<i64>> {
    ranges.iter().fold(vec![vec![]], |all, range| {
        let longer = |state: &Vec<i64>| {
            let state = state.clone();
            (range.low..=range.high).map(move |x| [&state[..], &[x]].concat())
        };
        all.iter().flat_map(longer).collect()
    })
}

fn hold(rows: &[Row], state: &[i64]) -> bool {
    rows.iter().all(|row| value(row, state) >= 0)
}

/// The largest value of the sum, worked out with the plain values' own arithmetic.
fn largest(multipliers: &[i64], rows: &[Row], ranges: &[Range]) -> i64 {
    let parts = multipliers.iter().zip(rows);
    let sum = parts.fold(Row::default(), |sum, (times, row)| sum.plus(*times, row));
    sum.largest(ranges)
}

/// What both say of rows, held to what they promise: multipliers that show it, a state at which all rows hold, and never both.
fn asked(rows: &[Row], ranges: &[Range]) -> (Refutation, Found) {
    let (refuted, found) = (refute(rows, ranges), state(rows, ranges));
    if let Refutation::Multipliers(multipliers) = &refuted {
        assert_eq!(multipliers.len(), rows.len());
        assert!(multipliers.iter().all(|m| (0..=MULTIPLIER).contains(m)));
        assert!(largest(multipliers, rows, ranges) < 0);
        assert!(!matches!(found, Found::State(_)));
    }
    if let Found::State(state) = &found {
        assert_eq!(state.len(), ranges.len());
        let within = |(x, r): (&i64, &Range)| (r.low..=r.high).contains(x);
        assert!(state.iter().zip(ranges).all(within) && hold(rows, state));
    }
    (refuted, found)
}

/// Fade's lemmas, as docs/FORMAT.md works them out.
#[test]
fn fade() {
    let level = [range(0, 1000)];
    let low = [row(4, &[-1]), row(-5, &[1])];
    let shown = |multipliers: &[i64]| Refutation::Multipliers(multipliers.to_vec());
    assert_eq!(asked(&low, &level), (shown(&[1, 1]), Found::None));
    let high = [row(-1006, &[1]), row(-5, &[1])];
    assert_eq!(asked(&high, &level), (shown(&[1, 0]), Found::None));
    let open = [row(4, &[-1])];
    let state = Found::State(vec![0]);
    assert_eq!(asked(&open, &level), (Refutation::Feasible, state));
}

/// 2x + 3y at least 7, where x + y is at most 2 and y at most 2: 2 times 2 - x - y leaves y - 3, at most -1.
#[test]
fn proportions() {
    let rows = [row(-7, &[2, 3]), row(2, &[-1, -1])];
    let ranges = [range(0, 9), range(0, 2)];
    assert_eq!(
        asked(&rows, &ranges),
        (Refutation::Multipliers(vec![1, 2]), Found::None)
    );
}

/// Between whole numbers: 2x at least 1 and at most 1. No multipliers show that no whole number is there.
#[test]
fn between() {
    let rows = [row(-1, &[2]), row(1, &[-2])];
    let answer = (Refutation::Feasible, Found::None);
    assert_eq!(asked(&rows, &[range(-5, 5)]), answer);
    let rows = [row(-1, &[2, -4]), row(1, &[-2, 4])];
    assert_eq!(asked(&rows, &[range(-5, 5), range(-5, 5)]), answer);
}

#[test]
fn little() {
    let one = [range(7, 7)];
    let feasible = |state: i64| (Refutation::Feasible, Found::State(vec![state]));
    let refuted = |numbers: &[i64]| (Refutation::Multipliers(numbers.to_vec()), Found::None);
    assert_eq!(asked(&[], &one), feasible(7));
    assert_eq!(asked(&[row(0, &[])], &one), feasible(7));
    assert_eq!(asked(&[row(-1, &[])], &one), refuted(&[1]));
    assert_eq!(asked(&[row(3, &[]), row(-1, &[])], &one), refuted(&[0, 1]));
    assert_eq!(asked(&[row(-7, &[1])], &one), feasible(7));
    assert_eq!(asked(&[row(-8, &[1])], &one), refuted(&[1]));
    assert_eq!(
        asked(&[row(-8, &[1]), row(6, &[-1])], &[range(7, 7)]).1,
        Found::None
    );
}

/// Small systems, with every state tried.
#[test]
fn small_systems() {
    let mut dice = Dice(1);
    let (mut refuted, mut between, mut met) = (0, 0, 0);
    for turn in 0..20_000 {
        let variables = dice.roll(1, 3) as usize;
        let ranges = dice.ranges(variables, -4, 4);
        let count = dice.roll(0, 5);
        let width = [3, 9, 30][turn % 3];
        let rows: Vec<Row> = (0..count)
            .map(|_| dice.row(variables, width, 2 * width))
            .collect();
        let any = states(&ranges).iter().any(|state| hold(&rows, state));
        match asked(&rows, &ranges) {
            (Refutation::Multipliers(_), Found::None) => refuted += 1,
            (Refutation::Feasible, Found::None) => between += 1,
            (Refutation::Feasible, Found::State(_)) => met += 1,
            other => panic!("{other:?} for {rows:?} over {ranges:?}"),
        }
        assert_eq!(refuted + between + met, turn + 1);
        assert_eq!(any, matches!(state(&rows, &ranges), Found::State(_)));
    }
    assert!(
        refuted > 2_000 && between > 100 && met > 2_000,
        "{refuted} {between} {met}"
    );
}

/// The largest rows that a lemma can have: eight variables, a goal behind assignments, premises and guard rows.
#[test]
fn the_largest_rows_of_the_format() {
    let mut dice = Dice(2);
    let (mut known, all) = (0, 300);
    for turn in 0..all {
        let ranges = dice.ranges(VARIABLES, LOWEST, HIGHEST);
        let count = dice.roll(2, 23);
        let mut rows: Vec<Row> = (0..count)
            .map(|_| dice.row(VARIABLES, COEFFICIENT, CONSTANT))
            .collect();
        if turn % 2 == 0 {
            let sets: Vec<(usize, Row)> = (0..VARIABLES)
                .map(|k| (k, dice.row(VARIABLES, COEFFICIENT, CONSTANT)))
                .collect();
            rows[0] = rows[0].after(&sets).negated();
        }
        known += usize::from(asked(&rows, &ranges).0 != Refutation::Unknown);
    }
    assert_eq!(known, all);
}

/// Rows with any numbers, as assignments one behind the other make them: no answer is wrong, and nothing overflows.
#[test]
fn rows_with_any_numbers() {
    let mut dice = Dice(3);
    for turn in 0..200 {
        let ranges = dice.ranges(VARIABLES, LOWEST, HIGHEST);
        let width = [i64::MAX, i64::MAX >> 16, 1 << 40, 1 << 30][turn % 4];
        let rows: Vec<Row> = (0..dice.roll(1, 12))
            .map(|_| dice.row(VARIABLES, width, width))
            .collect();
        refute(&rows, &ranges);
        if let Found::State(state) = state(&rows, &ranges) {
            assert!(hold(&rows, &state));
        }
    }
    let worst = [row(i64::MIN, &[i64::MIN; 8]), row(i64::MAX, &[i64::MAX; 8])];
    let ranges = vec![range(LOWEST, HIGHEST); VARIABLES];
    refute(&worst, &ranges);
    state(&worst, &ranges);
}

/// Some thousands of rows around a point, which stay few in the linear programs.
#[test]
fn thousands_of_rows() {
    let mut dice = Dice(4);
    let ranges = vec![range(0, 1000); VARIABLES];
    let point: Vec<i64> = (0..VARIABLES).map(|_| dice.roll(0, 1000)).collect();
    let mut rows: Vec<Row> = (0..4_000).map(|_| dice.row(VARIABLES, 9, 0)).collect();
    for row in &mut rows {
        row.constant = 3 - row.value(&point);
    }
    assert!(matches!(state(&rows, &ranges), Found::State(_)));
    rows.push(row(-3, &[]).plus(-1, &rows[0]).plus(-1, &row(0, &[])));
    assert_eq!(state(&rows, &ranges), Found::None);
}
