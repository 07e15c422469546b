//! The way around a ring, and where its nodes are along it.
use crate::draw::geometry::{direction, Point};

/// How much room boxes take along a ring differs: above each other at its sides, beside each other at its top. What part of the
/// way around lies before an angle, if boxes stand as densely as they can everywhere?
pub struct Rim(Vec<f64>);

const PIECES: usize = 720;
/// Fewer nodes than that are at even angles.
const LOOSE: usize = 8;

impl Rim {
    /// For so many boxes, with middles that have to be so far apart, beside or above each other.
    pub fn new(room: Point, nodes: usize) -> Rim {
        let mut sums = vec![0.0];
        for k in 0..PIECES {
            let way = direction((k as f64 + 0.5) / PIECES as f64);
            let apart = (room.x / way.y.abs()).min(room.y / way.x.abs());
            let density = if nodes > LOOSE { 1.0 / apart } else { 1.0 };
            sums.push(sums[k] + density);
        }
        let all = sums[PIECES];
        Rim(sums.into_iter().map(|sum| sum / all).collect())
    }

    /// What part of the way around an angle is, in turns.
    pub fn part(&self, turns: f64) -> f64 {
        let (whole, at) = (turns.floor(), turns.rem_euclid(1.0) * PIECES as f64);
        let k = (at as usize).min(PIECES - 1);
        whole + self.0[k] + (self.0[k + 1] - self.0[k]) * (at - k as f64)
    }

    /// The angle of a part of the way around.
    pub fn turns(&self, part: f64) -> f64 {
        let (whole, at) = (part.floor(), part.rem_euclid(1.0));
        let k = self.0.partition_point(|&sum| sum <= at).clamp(1, PIECES) - 1;
        let beyond = (at - self.0[k]) / (self.0[k + 1] - self.0[k]);
        whole + (k as f64 + beyond) / PIECES as f64
    }
}

/// The mean of angles, by their differences from the first; None of none.
pub fn mean(mut turns: impl Iterator<Item = f64>) -> Option<f64> {
    let first = turns.next()?;
    let (sum, count) = turns.fold((0.0, 1.0), |(sum, count), turn| {
        (sum + wrapped(turn - first), count + 1.0)
    });
    Some(first + sum / count)
}

/// The same angle between minus half a turn and half a turn.
fn wrapped(turns: f64) -> f64 {
    turns - turns.round()
}

/// Evenly spaced parts of the way around for the nodes of a ring, in the order of the wishes and as near to them as one turn of the whole ring can
/// bring them.
pub fn spread(nodes: &[usize], wishes: &[Option<f64>]) -> Vec<(usize, f64)> {
    let count = nodes.len() as f64;
    let even = |k: usize| k as f64 / count;
    let mut order: Vec<(usize, f64)> = (0..)
        .zip(nodes.iter().zip(wishes))
        .map(|(k, (&node, wish))| (node, wish.unwrap_or(even(k)).rem_euclid(1.0)))
        .collect();
    order.sort_by(|a, b| a.1.total_cmp(&b.1));
    let off = order
        .iter()
        .enumerate()
        .map(|(k, &(_, wish))| wish - even(k));
    let by = mean(off).unwrap_or(0.0);
    let placed = order.iter().enumerate();
    placed.map(|(k, &(node, _))| (node, even(k) + by)).collect()
}

#[cfg(test)]
mod tests {
    use super::*;
    use crate::draw::geometry::point;

    #[test]
    fn angles_and_parts_go_there_and_back() {
        for (room, nodes) in [(point(100.0, 60.0), 100), (point(100.0, 60.0), 3)] {
            let rim = Rim::new(room, nodes);
            for k in -20..40 {
                let turns = f64::from(k) / 17.0;
                assert!((rim.turns(rim.part(turns)) - turns).abs() < 1e-9);
            }
            for quarter in [0.0, 0.25, 0.5, 0.75, 1.0] {
                assert!((rim.part(quarter) - quarter).abs() < 1e-9);
            }
        }
    }

    #[test]
    fn means_go_the_short_way_around() {
        assert_eq!(mean([].into_iter()), None);
        assert!((mean([0.9, 0.1].into_iter()).unwrap() - 1.0).abs() < 1e-9);
        assert!((mean([0.2, 0.4].into_iter()).unwrap() - 0.3).abs() < 1e-9);
    }

    #[test]
    fn nodes_are_spread_in_the_order_of_their_wishes() {
        let places = spread(&[7, 8, 9], &[Some(0.5), Some(0.2), Some(0.8)]);
        let order: Vec<usize> = places.iter().map(|place| place.0).collect();
        assert_eq!(order, [8, 7, 9]);
        let gaps: Vec<f64> = places.windows(2).map(|two| two[1].1 - two[0].1).collect();
        assert!(gaps.iter().all(|gap| (gap - 1.0 / 3.0).abs() < 1e-9));
        let even = spread(&[1, 2], &[None, None]);
        assert_eq!(even, [(1, 0.0), (2, 0.5)]);
    }
}
