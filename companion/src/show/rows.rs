//! Rows and ranges: what a row is worth at a state, its negation, its largest value over the ranges, and a row afterwards.

/// The most variables of a logic.
pub const VARIABLES: usize = bulanevior::MOST_VARIABLES;

/// The values that a variable may have, both ends with them.
#[derive(Clone, Copy, Debug, PartialEq, Eq)]
pub struct Range {
    pub low: i64,
    pub high: i64,
}

/// Coefficients times variables, plus a constant. It holds where it is at least 0.
#[derive(Clone, Copy, Debug, Default, PartialEq, Eq)]
pub struct Row {
    pub coefficients: [i64; VARIABLES],
    pub constant: i64,
}

impl Row {
    /// A row without terms.
    pub fn constant(constant: i64) -> Row {
        Row {
            constant,
            ..Row::default()
        }
    }

    /// One variable.
    pub fn variable(variable: usize) -> Row {
        let mut row = Row::default();
        row.coefficients[variable] = 1;
        row
    }

    /// Its terms: variables by rising number, with coefficients that are not 0.
    pub fn terms(&self) -> impl Iterator<Item = (usize, i64)> + '_ {
        let all = self.coefficients.iter().copied().enumerate();
        all.filter(|&(_, coefficient)| coefficient != 0)
    }

    /// This row and a multiple of another.
    pub fn plus(&self, times: i64, other: &Row) -> Row {
        let mut sum = *self;
        for (a, b) in sum.coefficients.iter_mut().zip(other.coefficients) {
            *a += times * b;
        }
        sum.constant += times * other.constant;
        sum
    }

    /// The same, unless a number is too large.
    pub fn plus_checked(&self, times: i64, other: &Row) -> Option<Row> {
        let mut sum = *self;
        for (a, b) in sum.coefficients.iter_mut().zip(other.coefficients) {
            *a = a.checked_add(times.checked_mul(b)?)?;
        }
        sum.constant = sum
            .constant
            .checked_add(times.checked_mul(other.constant)?)?;
        Some(sum)
    }

    /// The row with the row of a value put in for each variable, unless a number is too large.
    pub fn through(&self, values: &[Row]) -> Option<Row> {
        self.terms()
            .try_fold(Row::constant(self.constant), |sum, (variable, times)| {
                sum.plus_checked(times, &values[variable])
            })
    }

    /// A row that holds exactly where this one fails: minus the row, minus 1.
    pub fn negated(&self) -> Row {
        Row::constant(-1).plus(-1, self)
    }

    /// Its value at a state.
    pub fn value(&self, state: &[i64]) -> i64 {
        let terms = self.coefficients.iter().zip(state);
        self.constant + terms.map(|(c, x)| c * x).sum::<i64>()
    }

    /// Its largest value over the ranges: the high end under each positive coefficient, the low end under each negative one.
    pub fn largest(&self, ranges: &[Range]) -> i64 {
        let most = |(&c, range): (&i64, &Range)| c * if c > 0 { range.high } else { range.low };
        self.constant + self.coefficients.iter().zip(ranges).map(most).sum::<i64>()
    }

    /// The row of its value after assignments, each a variable and the row of its new value; all of them use the old values.
    pub fn after(&self, sets: &[(usize, Row)]) -> Row {
        let mut row = *self;
        for &(variable, _) in sets {
            row.coefficients[variable] = 0;
        }
        sets.iter().fold(row, |row, (variable, new)| {
            row.plus(self.coefficients[*variable], new)
        })
    }
}

#[cfg(test)]
mod tests {
    use super::*;

    fn row(constant: i64, first: i64, second: i64) -> Row {
        let coefficients = [first, second, 0, 0, 0, 0, 0, 0];
        Row {
            coefficients,
            constant,
        }
    }

    #[test]
    fn values_and_negations() {
        let level = row(-5, 1, 0);
        assert_eq!((level.value(&[5]), level.value(&[4])), (0, -1));
        assert_eq!(level.negated(), row(4, -1, 0));
        // At each state exactly one of the two holds.
        for x in -3..9 {
            let (a, b) = (level.value(&[x]), level.negated().value(&[x]));
            assert!((a >= 0) != (b >= 0));
        }
        let terms: Vec<_> = row(1, 0, -7).terms().collect();
        assert_eq!(terms, [(1, -7)]);
    }

    #[test]
    fn the_sign_picks_the_end() {
        let ranges = [
            Range {
                low: -3,
                high: 1000,
            },
            Range { low: 2, high: 7 },
        ];
        assert_eq!(row(1, 1, 0).largest(&ranges), 1001);
        assert_eq!(row(1, -1, 0).largest(&ranges), 4);
        assert_eq!(row(0, -2, 3).largest(&ranges), 6 + 21);
    }

    /// Two variables exchange their values: both assignments see the old ones.
    #[test]
    fn assignments_happen_at_once() {
        let swap = [(0, Row::variable(1)), (1, Row::variable(0))];
        assert_eq!(row(9, 2, 5).after(&swap), row(9, 5, 2));
        let off = [(0, row(-5, 1, 0))];
        assert_eq!(row(0, 1, 0).after(&off), row(-5, 1, 0));
        assert_eq!(row(0, 0, 3).after(&off), row(0, 0, 3));
    }
}
