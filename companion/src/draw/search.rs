//! Looking for better places: the angles of the nodes are changed, one way or another, and what is better is kept.
use crate::draw::geometry::{cross, point, Frame, Point};
use crate::draw::layout::{Places, Task};

/// How many steps of work looking for better places may take.
const WORK: usize = 100_000_000;
/// The angles that are tried are that part of a turn apart.
const SLOTS: f64 = 48.0;

impl Task {
    /// How bad places are, with straight lines for arrows: lines through boxes, lines that cross, long lines, all on one side, large rings.
    pub fn cost(&self, places: &Places) -> f64 {
        let (mut through, mut crossings, mut length) = (0, 0, 0.0);
        let line = |link: &(usize, usize)| [places.middles[link.0], places.middles[link.1]];
        for (k, link) in self.links.iter().enumerate() {
            let ends = line(link);
            length += (ends[1] - ends[0]).length();
            let meets = |other: &(usize, usize)| cross(ends, line(other));
            crossings += self.links[..k].iter().filter(|other| meets(other)).count();
            let strange = |&node: &usize| node != link.0 && node != link.1;
            let others = (0..self.halves.len()).filter(strange);
            through += others
                .filter(|&node| hits(ends, &self.frame(places, node)))
                .count();
        }
        let middle = places
            .middles
            .iter()
            .fold(Point::default(), |sum, &at| sum + at);
        let lopsided = middle.length() / self.halves.len() as f64;
        40.0 * through as f64
            + 9.0 * crossings as f64
            + length / 60.0
            + lopsided / 5.0
            + self.outer(places) / 5.0
    }

    /// Tries nodes at other angles, and keeps what is better; at first also what is a little worse.
    pub fn improved(&self, places: Places, cost: f64) -> Places {
        let (nodes, links) = (self.halves.len(), self.links.len());
        let tries = (WORK / (links * links + 10 * links * nodes + 20 * nodes * nodes)).min(20_000);
        let mut dice = Dice(0x2545_F491_4F6C_DD1D);
        let (mut now, mut now_cost) = (places.clone(), cost);
        let (mut best, mut best_cost) = (places, cost);
        for k in 0..tries {
            let slack = 25.0 * (1.0 - k as f64 / tries as f64 * 1.25).max(0.0);
            let Some(next) = self.settle(&self.moved(&now.turns, &mut dice)) else {
                continue;
            };
            let next_cost = self.cost(&next);
            if next_cost < now_cost + slack * dice.part() {
                (now, now_cost) = (next, next_cost);
            }
            if now_cost < best_cost {
                (best, best_cost) = (now.clone(), now_cost);
            }
        }
        best
    }

    /// The angles with one change: two nodes of a ring swapped, or one node, one ring or all from one ring outwards turned.
    fn moved(&self, turns: &[f64], dice: &mut Dice) -> Vec<f64> {
        let mut turns = turns.to_vec();
        let ring = 1 + dice.below(self.rings.len() - 1);
        let nodes = &self.rings[ring];
        let node = nodes[dice.below(nodes.len())];
        let by = (1.0 + dice.below(SLOTS as usize - 1) as f64) / SLOTS;
        match dice.below(4) {
            0 => turns.swap(node, nodes[dice.below(nodes.len())]),
            1 => turns[node] = ((turns[node] + by) * SLOTS).round() / SLOTS,
            2 => nodes.iter().for_each(|&node| turns[node] += by),
            _ => self.rings[ring..]
                .iter()
                .flatten()
                .for_each(|&node| turns[node] += by),
        }
        turns
    }
}

/// Does a line run through a box, or nearly?
fn hits(ends: [Point; 2], frame: &Frame) -> bool {
    let half = frame.half + point(10.0, 10.0);
    let (start, along) = (ends[0] - frame.middle, ends[1] - ends[0]);
    let (mut from, mut to) = (0.0_f64, 1.0_f64);
    for (start, along, half) in [(start.x, along.x, half.x), (start.y, along.y, half.y)] {
        if along.abs() < 1e-9 {
            if start.abs() > half {
                return false;
            }
            continue;
        }
        let (a, b) = ((-half - start) / along, (half - start) / along);
        (from, to) = (from.max(a.min(b)), to.min(a.max(b)));
    }
    from < to
}

/// Numbers that look like chance, the same ones every time.
struct Dice(u64);

impl Dice {
    fn next(&mut self) -> u64 {
        self.0 ^= self.0 << 13;
        self.0 ^= self.0 >> 7;
        self.0 ^= self.0 << 17;
        self.0
    }

    fn below(&mut self, bound: usize) -> usize {
        (self.next() % bound as u64) as usize
    }

    /// At least 0, below 1.
    fn part(&mut self) -> f64 {
        (self.next() >> 11) as f64 / (1u64 << 53) as f64
    }
}

#[cfg(test)]
mod tests {
    use super::*;

    /// A square of which the diagonals are joined: at other angles no lines cross.
    #[test]
    fn better_places_are_found() {
        let task = Task {
            halves: vec![point(20.0, 20.0); 5],
            rings: vec![vec![0], vec![1, 2, 3, 4]],
            links: vec![(0, 1), (1, 3), (2, 4)],
            gap: point(20.0, 20.0),
            step: 20.0,
        };
        let places = task.settle(&[0.0, 0.0, 0.25, 0.5, 0.75]).unwrap();
        let cost = task.cost(&places);
        let better = task.improved(places, cost);
        assert!(task.cost(&better) < cost - 30.0);
    }

    #[test]
    fn lines_hit_boxes_or_not() {
        let frame = Frame {
            middle: point(0.0, 0.0),
            half: point(30.0, 20.0),
        };
        let line = |a, b, c, d| [point(a, b), point(c, d)];
        assert!(hits(line(-100., 0., 100., 0.), &frame));
        assert!(hits(line(0., -100., 0., 100.), &frame));
        assert!(hits(line(-100., -60., 100., 60.), &frame));
        assert!(!hits(line(-100., 40., 100., 40.), &frame));
        assert!(!hits(line(50., -100., 50., 100.), &frame));
        assert!(!hits(line(-100., 0., -50., 0.), &frame));
    }
}
