//! Exact linear arithmetic over rows and ranges: Farkas multipliers that show that rows cannot all hold, and states at which they do.
//! Nobody has to trust it: multipliers and states are worked out again before they are handed out, and a lemma is asked of the proved
//! call. Where a number leaves 128 bits, or a search takes too long, the answer is that it is not known.
//!
//! | Module | Holds |
//! |---|---|
//! | `tableau` | the simplex method on an integer tableau: the point at which the least of some rows is largest |
//! | `wide` | products of 256 bits, for its pivots |
//! | `refute` | multipliers from the duals of that |
//! | `bounds` | ranges made narrower by single rows |
//! | `state` | whole-number states, by branch and bound |

mod bounds;
mod refute;
mod state;
mod tableau;
mod wide;

pub use refute::{refute, Refutation};
pub use state::{state, Found};

use crate::show::rows::{Range, Row};

/// A row's value at a state, whatever its numbers are.
fn value(row: &Row, state: &[i64]) -> i128 {
    let term = |(&c, &x): (&i64, &i64)| i128::from(c) * i128::from(x);
    i128::from(row.constant) + row.coefficients.iter().zip(state).map(term).sum::<i128>()
}

/// A coefficient times the end of a range under which it is largest.
fn most(coefficient: i128, range: &Range) -> Option<i128> {
    coefficient.checked_mul(i128::from(if coefficient > 0 {
        range.high
    } else {
        range.low
    }))
}

fn gcd(a: i128, b: i128) -> i128 {
    if b == 0 {
        a.abs()
    } else {
        gcd(b, a % b)
    }
}

#[cfg(test)]
pub mod dice;
#[cfg(test)]
mod tests;
