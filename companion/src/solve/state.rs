//! Whole-number states at which rows all hold, by branch and bound: a box of ranges is made narrower by single rows, a rational point of
//! it is rounded, and where that is no state the box is split at a coordinate that is no whole number.
use super::bounds::{narrowed, smallest};
use super::tableau::highest;
use super::value;
use crate::show::rows::{Range, Row};

#[derive(Clone, Debug, PartialEq, Eq)]
pub enum Found {
    State(Vec<i64>),
    /// There is none: every box was looked at.
    None,
    /// It was given up.
    Unknown,
}

/// The most boxes and linear programs that are looked at.
const MOST: usize = 2_000;
/// How many of the rows that fail at a point are taken up at once.
const TAKEN: usize = 4;
/// Points with larger denominators are not rounded.
const LARGE: i128 = 1 << 112;

/// A point with a common denominator.
struct Point {
    coordinates: Vec<i128>,
    denominator: i128,
}

impl Point {
    /// Is a row below 0 there, and how far? Overflows count as far.
    fn below(&self, row: &Row) -> Option<i128> {
        let term = |(&c, &x): (&i64, &i128)| i128::from(c).checked_mul(x);
        let terms = row.coefficients.iter().zip(&self.coordinates).map(term);
        let constant = i128::from(row.constant).checked_mul(self.denominator);
        let sum = terms.fold(constant, |sum, term| sum?.checked_add(term?));
        sum.map_or(Some(i128::MIN), |value| (value < 0).then_some(value))
    }

    fn rounded(&self) -> Vec<i64> {
        let whole = |x: &i128| (2 * x + self.denominator).div_euclid(2 * self.denominator) as i64;
        self.coordinates.iter().map(whole).collect()
    }

    /// The coordinate that is the farthest from a whole number, and the whole number below it.
    fn fraction(&self) -> Option<(usize, i64)> {
        let part = |x: i128| x.rem_euclid(self.denominator);
        let far = |x: i128| part(x).min(self.denominator - part(x));
        let broken = self.coordinates.iter().enumerate();
        let broken = broken.filter(|&(_, &x)| part(x) != 0);
        let (k, x) = broken.max_by_key(|&(_, &x)| far(x))?;
        Some((k, x.div_euclid(self.denominator) as i64))
    }
}

/// What a linear program says of a box.
enum Relaxed {
    Empty,
    Point(Point),
    Unknown,
}

struct Search {
    rows: Vec<Row>,
    /// Those that linear programs have needed so far, by number.
    taken: Vec<usize>,
    left: usize,
}

impl Search {
    fn holds(&self, state: &[i64], ranges: &[Range]) -> bool {
        let within = |(x, range): (&i64, &Range)| (range.low..=range.high).contains(x);
        state.iter().zip(ranges).all(within) && self.rows.iter().all(|row| value(row, state) >= 0)
    }

    /// Takes up the rows that fail the most at a point: how many; None where none fails.
    fn take(&mut self, point: &Point) -> Option<usize> {
        let mut failing: Vec<(i128, usize)> = (0..self.rows.len())
            .filter_map(|k| Some((point.below(&self.rows[k])?, k)))
            .collect();
        failing.sort_unstable();
        failing.first()?;
        failing.retain(|(_, k)| !self.taken.contains(k));
        failing.truncate(TAKEN);
        self.taken.extend(failing.iter().map(|&(_, k)| k));
        Some(failing.len())
    }

    /// The rational point at which the least of the rows that were taken up is largest.
    fn solved(&mut self, ranges: &[Range]) -> Relaxed {
        let rows: Vec<Row> = self.taken.iter().map(|&k| self.rows[k]).collect();
        match highest(&rows, ranges) {
            Some(optimum) if optimum.below => Relaxed::Empty,
            Some(optimum) if optimum.denominator < LARGE => Relaxed::Point(Point {
                coordinates: optimum.point,
                denominator: optimum.denominator,
            }),
            _ => Relaxed::Unknown,
        }
    }

    /// A rational point of a box at which all rows hold, with rows taken up as they are needed.
    fn relaxed(&mut self, ranges: &[Range]) -> Relaxed {
        let mut point = middle(ranges);
        while let Some(more) = self.take(&point) {
            if more == 0 || !self.count() {
                return Relaxed::Unknown;
            }
            match self.solved(ranges) {
                Relaxed::Point(next) => point = next,
                Relaxed::Empty => return Relaxed::Empty,
                Relaxed::Unknown => {
                    self.taken.truncate(self.taken.len() - more);
                    return Relaxed::Unknown;
                }
            }
        }
        Relaxed::Point(point)
    }

    /// Counts one more box or linear program; false where there were enough.
    fn count(&mut self) -> bool {
        let more = self.left > 0;
        self.left -= usize::from(more);
        more
    }

    /// Looks at a box: a state of it, or the boxes that are left to look at, of which the last is the first to look at.
    fn look(&mut self, ranges: &[Range]) -> Result<Vec<i64>, Vec<Vec<Range>>> {
        let Some(ranges) = narrowed(&self.rows, ranges) else {
            return Err(Vec::new());
        };
        let corner: Vec<i64> = ranges.iter().map(|range| range.low).collect();
        if self.holds(&corner, &ranges) {
            return Ok(corner);
        }
        if ranges.iter().all(|range| range.low == range.high) {
            return Err(Vec::new());
        }
        let (k, at, up) = match self.relaxed(&ranges) {
            Relaxed::Empty => return Err(Vec::new()),
            Relaxed::Unknown => halfway(&ranges),
            Relaxed::Point(point) => {
                let near = point.rounded();
                if self.holds(&near, &ranges) {
                    return Ok(near);
                }
                match point.fraction() {
                    Some((k, at)) => (k, at, near[k] > at),
                    None => halfway(&ranges),
                }
            }
        };
        Err(split(&ranges, k, at, up))
    }
}

fn middle(ranges: &[Range]) -> Point {
    Point {
        coordinates: ranges.iter().map(|r| i128::from(r.low + r.high)).collect(),
        denominator: 2,
    }
}

/// The widest range and its middle.
fn halfway(ranges: &[Range]) -> (usize, i64, bool) {
    let width = |k: &usize| ranges[*k].high - ranges[*k].low;
    let k = (0..ranges.len()).max_by_key(width).unwrap_or(0);
    (k, (ranges[k].low + ranges[k].high).div_euclid(2), false)
}

/// The two parts of a box, up to a value of a variable and above it; `up` is to come last. A part without a state is left out.
fn split(ranges: &[Range], k: usize, at: i64, up: bool) -> Vec<Vec<Range>> {
    let (mut below, mut above) = (ranges.to_vec(), ranges.to_vec());
    below[k].high = at;
    above[k].low = at + 1;
    let mut parts = if up {
        vec![below, above]
    } else {
        vec![above, below]
    };
    parts.retain(|part| part[k].low <= part[k].high);
    parts
}

/// The same state with each variable in turn as low as the rows let it be: smaller numbers are easier to read.
fn lowered(rows: &[Row], ranges: &[Range], state: Vec<i64>) -> Vec<i64> {
    (0..ranges.len()).fold(state, |mut state, k| {
        let fixed = state.iter().map(|&x| Range { low: x, high: x });
        let mut line: Vec<Range> = fixed.collect();
        line[k] = ranges[k];
        if let Some(line) = narrowed(rows, &line) {
            state[k] = line[k].low;
        }
        state
    })
}

/// A state of the ranges at which all rows hold. The numbers of a row may be any; ranges are those of a show.
pub fn state(rows: &[Row], ranges: &[Range]) -> Found {
    let mut search = Search {
        rows: rows.iter().map(smallest).collect(),
        taken: Vec::new(),
        left: MOST,
    };
    let mut boxes = vec![ranges.to_vec()];
    while let Some(next) = boxes.pop() {
        if !search.count() {
            return Found::Unknown;
        }
        match search.look(&next) {
            Ok(found) => {
                let state = lowered(&search.rows, ranges, found);
                return match rows.iter().all(|row| value(row, &state) >= 0) {
                    true => Found::State(state),
                    false => Found::Unknown,
                };
            }
            Err(parts) => boxes.extend(parts),
        }
    }
    Found::None
}
