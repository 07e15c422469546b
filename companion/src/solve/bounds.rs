//! Ranges made narrower by single rows, over the whole numbers.
use super::{gcd, most};
use crate::show::rows::{Range, Row};

/// Rows may push each other's ends on in small steps: so often all rows are gone through.
const ROUNDS: usize = 64;

/// The same row over the whole numbers, with the smallest coefficients: divided by what divides them all, its constant rounded down.
pub fn smallest(row: &Row) -> Row {
    let common = row.terms().fold(0, |all, (_, c)| gcd(all, i128::from(c)));
    let Ok(common @ 2..) = i64::try_from(common) else {
        return *row;
    };
    Row {
        coefficients: row.coefficients.map(|c| c / common),
        constant: row.constant.div_euclid(common),
    }
}

/// The ranges without ends at which some row fails whatever the other variables are; None where that leaves no state.
pub fn narrowed(rows: &[Row], ranges: &[Range]) -> Option<Vec<Range>> {
    let mut ranges = ranges.to_vec();
    for _ in 0..ROUNDS {
        let before = ranges.clone();
        rows.iter().try_for_each(|row| by_row(row, &mut ranges))?;
        if ranges == before {
            break;
        }
    }
    Some(ranges)
}

/// One row's part in it.
fn by_row(row: &Row, ranges: &mut [Range]) -> Option<()> {
    for (k, c) in row.terms() {
        let c = i128::from(c);
        // c times the variable is at least minus the most that the rest can be.
        let rest = top(row, ranges)? - most(c, &ranges[k])?;
        let range = &mut ranges[k];
        if c > 0 {
            let low = -(rest.div_euclid(c));
            range.low = i64::try_from(low.max(i128::from(range.low))).ok()?;
        } else {
            let high = rest.div_euclid(-c);
            range.high = i64::try_from(high.min(i128::from(range.high))).ok()?;
        }
        if range.low > range.high {
            return None;
        }
    }
    (top(row, ranges)? >= 0).then_some(())
}

/// The row's largest value over the ranges.
fn top(row: &Row, ranges: &[Range]) -> Option<i128> {
    let constant = i128::from(row.constant);
    let mut terms = row.coefficients.iter().zip(ranges);
    terms.try_fold(constant, |sum, (&c, range)| {
        sum.checked_add(most(i128::from(c), range)?)
    })
}
