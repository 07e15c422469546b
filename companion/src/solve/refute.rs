//! Multipliers that show that rows cannot all hold over the ranges: by Farkas there are some exactly where no rational point meets all.
use super::tableau::highest;
use super::{gcd, most};
use crate::show::model::MULTIPLIER;
use crate::show::rows::{Range, Row, VARIABLES};

#[derive(Clone, Debug, PartialEq, Eq)]
pub enum Refutation {
    /// One for each row, none above `MULTIPLIER`: the largest value of the sum over the ranges is below 0.
    Multipliers(Vec<i64>),
    /// A rational point of the ranges meets all rows: no multipliers show anything.
    Feasible,
    /// The numbers are too large for this arithmetic, or for multipliers.
    Unknown,
}

/// Can the rows not all hold?
pub fn refute(rows: &[Row], ranges: &[Range]) -> Refutation {
    if rows.is_empty() {
        return Refutation::Feasible;
    }
    match highest(rows, ranges) {
        None => Refutation::Unknown,
        Some(optimum) if !optimum.below => Refutation::Feasible,
        Some(optimum) => match fitting(&optimum.duals, rows, ranges) {
            Some(multipliers) => Refutation::Multipliers(multipliers),
            None => Refutation::Unknown,
        },
    }
}

/// Small whole numbers in the proportions of the duals, as far as they show it: exact ones, else ever finer rounded ones.
fn fitting(duals: &[i128], rows: &[Row], ranges: &[Range]) -> Option<Vec<i64>> {
    let common = duals.iter().fold(0, |all, &dual| gcd(all, dual)).max(1);
    let duals: Vec<i128> = duals.iter().map(|dual| dual / common).collect();
    let largest = *duals.iter().max()?;
    let exact = (largest <= i128::from(MULTIPLIER)).then_some(largest);
    let finer = (0..16).map(|k| i128::from(MULTIPLIER) >> (15 - k));
    exact.into_iter().chain(finer).find_map(|to| {
        let found = scaled(&duals, to)?;
        shows(&found, rows, ranges).then_some(found)
    })
}

/// The duals in whole numbers, the largest of them this one.
fn scaled(duals: &[i128], to: i128) -> Option<Vec<i64>> {
    let largest = *duals.iter().max()?;
    let rounded = |&dual: &i128| {
        let twice = dual.checked_mul(2 * to)?.checked_add(largest)?;
        i64::try_from(twice / (2 * largest).max(1)).ok()
    };
    duals.iter().map(rounded).collect()
}

/// Is the largest value of the rows' sum below 0? Worked out anew, and false where a number leaves 128 bits.
fn shows(multipliers: &[i64], rows: &[Row], ranges: &[Range]) -> bool {
    let allowed = |&m: &i64| (0..=MULTIPLIER).contains(&m);
    multipliers.iter().all(allowed) && top(multipliers, rows, ranges).is_some_and(|top| top < 0)
}

fn top(multipliers: &[i64], rows: &[Row], ranges: &[Range]) -> Option<i128> {
    let (mut terms, mut constant) = ([0i128; VARIABLES], 0i128);
    for (&times, row) in multipliers.iter().zip(rows) {
        let times = i128::from(times);
        for (term, &c) in terms.iter_mut().zip(&row.coefficients) {
            *term = term.checked_add(times * i128::from(c))?;
        }
        constant = constant.checked_add(times * i128::from(row.constant))?;
    }
    terms
        .iter()
        .zip(ranges)
        .try_fold(constant, |sum, (&term, range)| {
            sum.checked_add(most(term, range)?)
        })
}
