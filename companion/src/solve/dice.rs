//! Numbers by dice, for tests: the same at each run.
use crate::show::rows::{Range, Row};

pub struct Dice(pub u64);

impl Dice {
    /// From `low` to `high`, both with them.
    pub fn roll(&mut self, low: i64, high: i64) -> i64 {
        self.0 = self.0.wrapping_mul(6_364_136_223_846_793_005);
        self.0 = self.0.wrapping_add(1_442_695_040_888_963_407);
        let width = (i128::from(high) - i128::from(low) + 1) as u128;
        let mixed = u128::from(self.0 ^ self.0 >> 29) * 0x9E37_79B9_7F4A_7C15;
        (i128::from(low) + ((mixed >> 32) % width) as i128) as i64
    }

    pub fn row(&mut self, variables: usize, coefficient: i64, constant: i64) -> Row {
        let mut row = Row::constant(self.roll(-constant, constant));
        for k in 0..variables {
            row.coefficients[k] = self.roll(-coefficient, coefficient);
        }
        row
    }

    pub fn ranges(&mut self, variables: usize, low: i64, high: i64) -> Vec<Range> {
        let range = |_| {
            let (a, b) = (self.roll(low, high), self.roll(low, high));
            Range {
                low: a.min(b),
                high: a.max(b),
            }
        };
        (0..variables).map(range).collect()
    }
}
