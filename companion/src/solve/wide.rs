//! Products of 128-bit numbers in 256 bits, and their exact quotients.

/// A number of 256 bits in two's complement.
#[derive(Clone, Copy, Debug, PartialEq, Eq, PartialOrd, Ord)]
pub struct Wide {
    high: i128,
    low: u128,
}

const HALF: u32 = 64;
const LOW: u128 = u64::MAX as u128;

impl Wide {
    pub fn product(a: i128, b: i128) -> Wide {
        let magnitude = Wide::unsigned(a.unsigned_abs(), b.unsigned_abs());
        match (a < 0) == (b < 0) {
            true => magnitude,
            false => Wide { high: 0, low: 0 }.minus(magnitude),
        }
    }

    /// By halves of 64 bits. The factors are at most 2 to the 127th.
    fn unsigned(a: u128, b: u128) -> Wide {
        let (a1, a0, b1, b0) = (a >> HALF, a & LOW, b >> HALF, b & LOW);
        let lowest = a0 * b0;
        let (first, second) = (a0 * b1, a1 * b0);
        let middle = (lowest >> HALF) + (first & LOW) + (second & LOW);
        let high = a1 * b1 + (first >> HALF) + (second >> HALF) + (middle >> HALF);
        Wide {
            high: high as i128,
            low: middle << HALF | lowest & LOW,
        }
    }

    fn minus(self, other: Wide) -> Wide {
        let (low, borrow) = self.low.overflowing_sub(other.low);
        let high = self.high.wrapping_sub(other.high);
        Wide {
            high: high.wrapping_sub(i128::from(borrow)),
            low,
        }
    }

    /// Its lowest 128 bits, less a number of them at the end.
    fn shifted(self, bits: u32) -> u128 {
        match bits {
            0 => self.low,
            _ => self.low >> bits | (self.high as u128) << (128 - bits),
        }
    }
}

/// The inverse of an odd number modulo 2 to the 128th: Newton's steps double the bits that are right.
fn inverse(odd: u128) -> u128 {
    (0..7).fold(odd, |x, _| {
        x.wrapping_mul(2u128.wrapping_sub(odd.wrapping_mul(x)))
    })
}

/// (a b - c d) / e, which has to be a whole number; None where it does not fit. What divides is not 0.
pub fn crossed([a, b, c, d]: [i128; 4], e: i128) -> Option<i128> {
    let fast = || a.checked_mul(b)?.checked_sub(c.checked_mul(d)?);
    if let Some(number) = fast() {
        return number.checked_div(e);
    }
    if [a, b, c, d, e].contains(&i128::MIN) {
        return None;
    }
    let number = Wide::product(a, b).minus(Wide::product(c, d));
    let zeros = e.trailing_zeros();
    let odd = (e >> zeros) as u128;
    let quotient = number.shifted(zeros).wrapping_mul(inverse(odd)) as i128;
    (quotient != i128::MIN && Wide::product(quotient, e) == number).then_some(quotient)
}

#[cfg(test)]
mod tests {
    use super::*;

    #[test]
    fn products() {
        let wide = |high, low| Wide { high, low };
        assert_eq!(Wide::product(0, -5), wide(0, 0));
        assert_eq!(Wide::product(-3, 5), wide(-1, 15u128.wrapping_neg()));
        assert_eq!(Wide::product(-3, -5), wide(0, 15));
        assert_eq!(Wide::product(1 << 100, 1 << 100), wide(1 << 72, 0));
        assert_eq!(Wide::product(-(1 << 100), 1 << 28), wide(-1, 0));
        let most = i128::MAX; // 2^254 - 2^128 + 1
        assert_eq!(Wide::product(most, most), wide((1 << 126) - 1, 1));
        assert!(Wide::product(-1, 1) < Wide::product(0, 7));
        assert!(Wide::product(1 << 100, 1 << 28) > Wide::product(1 << 126, 1));
    }

    /// Quotients that are known beforehand: (a b - c d) / e, where a and c are multiples of e.
    #[test]
    fn quotients() {
        assert_eq!(crossed([6, 5, 4, 3], 9), Some(2));
        assert_eq!(crossed([6, 5, 4, 3], -9), Some(-2));
        for e in [1, 3, -7, 8, -12, 1 << 40, (1 << 61) - 1, -96 << 50] {
            for (a, b, c, d) in [
                (5, 1 << 60, -3, 1 << 59),
                (1 << 50, 1 << 60, (1 << 50) - 1, (1 << 60) + 1),
                (-(1 << 55), (1 << 70) + 9, 77, 1 << 69),
            ] {
                let found = crossed([a * e, b, c * e, d], e);
                assert_eq!(found, Some(a * b - c * d), "{a} {b} {c} {d} {e}");
            }
        }
        assert_eq!(crossed([1 << 100, 1 << 100, 0, 0], 1 << 73), None);
        assert_eq!(crossed([1 << 100, 1 << 100, 0, 0], 1 << 74), Some(1 << 126));
        assert_eq!(
            crossed([1 << 100, -(1 << 100), 0, 0], 1 << 74),
            Some(-(1 << 126))
        );
        assert_eq!(crossed([i128::MIN, i128::MIN, 0, 0], 1), None);
    }
}
