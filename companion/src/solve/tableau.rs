//! The simplex method on an integer tableau, without fractions: all entries have one common denominator, the last pivot, and each
//! division is exact, since entries are minors of the first tableau. Bland's rule picks the pivots, so that it comes to an end.
use super::wide::{crossed, Wide};
use crate::show::rows::{Range, Row};

/// Where the least of some rows is largest over the ranges.
pub struct Optimum {
    /// The point, with the common denominator under each coordinate.
    pub point: Vec<i128>,
    pub denominator: i128,
    /// Is the least row there below 0? Then the rows cannot all hold, not over the rationals either.
    pub below: bool,
    /// The dual of each row, times the denominator. None is below 0.
    pub duals: Vec<i128>,
}

/// A tableau without the columns of its basis. The first row is the objective, the last column the right-hand side.
struct Tableau {
    cells: Vec<Vec<i128>>,
    denominator: i128,
    /// The variable of each column, and of each row behind the first.
    columns: Vec<usize>,
    basis: Vec<usize>,
}

impl Tableau {
    /// The lowest variable by which the objective grows: its column.
    fn entering(&self) -> Option<usize> {
        let grows = |&column: &usize| self.cells[0][column] < 0;
        (0..self.columns.len())
            .filter(grows)
            .min_by_key(|&column| self.columns[column])
    }

    /// The row that is the first to bind as the column's variable grows; of equal ones that of the lowest variable. There is one: the
    /// objective is bounded.
    fn leaving(&self, column: usize) -> Option<usize> {
        let last = self.columns.len();
        let binds = |&row: &usize| self.cells[row][column] > 0;
        (1..self.cells.len()).filter(binds).min_by(|&one, &other| {
            let (a, b) = (&self.cells[one], &self.cells[other]);
            let ratios = Wide::product(a[last], b[column]).cmp(&Wide::product(b[last], a[column]));
            ratios.then(self.basis[one - 1].cmp(&self.basis[other - 1]))
        })
    }

    /// None where a number leaves 128 bits.
    fn pivot(&mut self, row: usize, column: usize) -> Option<()> {
        let pivot = self.cells[row][column];
        let source = self.cells[row].clone();
        for (_, cells) in self.cells.iter_mut().enumerate().filter(|&(k, _)| k != row) {
            let factor = cells[column];
            for (k, cell) in cells.iter_mut().enumerate().filter(|&(k, _)| k != column) {
                *cell = crossed([*cell, pivot, factor, source[k]], self.denominator)?;
            }
            cells[column] = factor.checked_neg()?;
        }
        self.cells[row][column] = self.denominator;
        self.denominator = pivot;
        std::mem::swap(&mut self.columns[column], &mut self.basis[row - 1]);
        Some(())
    }

    /// To the optimum: the objective is bounded. None where a number leaves 128 bits.
    fn solve(&mut self) -> Option<()> {
        while let Some(column) = self.entering() {
            let row = self.leaving(column)?;
            self.pivot(row, column)?;
        }
        Some(())
    }

    /// The value of a variable times the denominator.
    fn level(&self, variable: usize) -> i128 {
        let row = self.basis.iter().position(|&v| v == variable);
        row.map_or(0, |row| self.cells[row + 1][self.columns.len()])
    }

    /// The reduced cost of a variable times the denominator: of a row's slack, the row's dual.
    fn cost(&self, variable: usize) -> i128 {
        let column = self.columns.iter().position(|&v| v == variable);
        column.map_or(0, |column| self.cells[0][column])
    }
}

/// The first tableau of the largest t such that each row is at least t at some point of the ranges. With y the coordinates less the low
/// ends, and t' what t is more than the least row at the low ends, y and t' at 0 are a feasible basis: t' less the terms of y is at most
/// a row's value at the low ends less the least of them, and each y at most its range's width.
fn first(rows: &[Row], ranges: &[Range], values: &[i128], least: i128) -> Tableau {
    let count = ranges.len();
    let mut objective = vec![0; count + 2];
    objective[0] = -1;
    let bound = rows.iter().zip(values).map(|(row, value)| {
        let terms = row.coefficients[..count].iter().map(|&c| -i128::from(c));
        let cells = std::iter::once(1).chain(terms);
        cells.chain([value - least]).collect()
    });
    let width = ranges.iter().enumerate().map(|(k, range)| {
        let mut cells = vec![0; count + 2];
        cells[k + 1] = 1;
        cells[count + 1] = i128::from(range.high - range.low);
        cells
    });
    let columns = 0..count + 1;
    Tableau {
        basis: (columns.end..columns.end + rows.len() + count).collect(),
        columns: columns.collect(),
        denominator: 1,
        cells: std::iter::once(objective)
            .chain(bound)
            .chain(width)
            .collect(),
    }
}

/// Where the least of the rows is largest. None where there is no row, or a number leaves 128 bits.
pub fn highest(rows: &[Row], ranges: &[Range]) -> Option<Optimum> {
    let low: Vec<i64> = ranges.iter().map(|range| range.low).collect();
    let values: Vec<i128> = rows.iter().map(|row| super::value(row, &low)).collect();
    let least = *values.iter().min()?;
    let mut tableau = first(rows, ranges, &values, least);
    tableau.solve()?;
    let denominator = tableau.denominator;
    let times = |number: i128| number.checked_mul(denominator);
    let coordinate =
        |(k, &low): (usize, &i64)| tableau.level(k + 1).checked_add(times(low.into())?);
    let point = low.iter().enumerate().map(coordinate);
    let slack = |k| ranges.len() + 1 + k;
    Some(Optimum {
        point: point.collect::<Option<_>>()?,
        denominator,
        below: tableau.level(0).checked_add(times(least)?)? < 0,
        duals: (0..rows.len()).map(|k| tableau.cost(slack(k))).collect(),
    })
}
