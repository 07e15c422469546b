//! Where the boxes of the nodes go: node 0 in the middle, the others on rings around it, so that no two overlap.
use crate::draw::geometry::{direction, point, Frame, Point};
use crate::draw::rim::{mean, spread, Rim};
use std::collections::BTreeSet;

/// What is to be placed.
pub struct Task {
    /// Half of each node's box.
    pub halves: Vec<Point>,
    /// The nodes of each ring.
    pub rings: Vec<Vec<usize>>,
    /// The pairs of nodes with an arrow, one way or both.
    pub links: Vec<(usize, usize)>,
    /// How far boxes are apart at the least, beside or above each other.
    pub gap: Point,
    /// How far rings are apart at the least.
    pub step: f64,
}

/// The nodes' angles, in turns, and what follows from them: each ring as small as it can be.
#[derive(Clone, Default)]
pub struct Places {
    pub turns: Vec<f64>,
    pub middles: Vec<Point>,
    pub radii: Vec<f64>,
}

impl Task {
    /// The best places found. For many nodes it is the smaller one of a fan and a spiral.
    pub fn places(&self, many: bool) -> Places {
        let width = self.halves.iter().map(|half| half.x).fold(0.0, f64::max) * 2.0;
        let arcs = [0.0, 0.7, 1.0, 1.4].map(|part| part * (width + self.gap.x));
        let tried = arcs.map(|arc| self.fan(arc));
        let weighed = tried.into_iter().map(|places| match many {
            true => (self.outer(&places), places),
            false => (self.cost(&places), places),
        });
        let best = weighed.min_by(|a, b| a.0.total_cmp(&b.0));
        match best {
            Some((cost, places)) if !many && self.rings.len() > 1 => self.improved(places, cost),
            Some((_, places)) => places,
            None => Places::default(),
        }
    }

    pub fn frame(&self, places: &Places, node: usize) -> Frame {
        Frame {
            middle: places.middles[node],
            half: self.halves[node],
        }
    }

    pub fn outer(&self, places: &Places) -> f64 {
        places.radii.last().copied().unwrap_or(0.0)
    }

    /// Each ring's nodes evenly spaced, near the inner nodes that they have arrows with; and each ring turned by an arc of that
    /// length, which makes a spiral of a chain.
    fn fan(&self, arc: f64) -> Places {
        let count = self.halves.len();
        let mut places = Places {
            turns: vec![0.0; count],
            middles: vec![Point::default(); count],
            radii: vec![0.0],
        };
        let near = self.near();
        for ring in 1..self.rings.len() {
            let nodes = &self.rings[ring];
            let rim = Rim::new(self.widest(nodes), nodes.len());
            let turned = match ring {
                1 => 0.0,
                _ => arc / (places.radii[ring - 1] * std::f64::consts::TAU),
            };
            let inner: BTreeSet<usize> = self.rings[1..ring].iter().flatten().copied().collect();
            let wish = |&node: &usize| {
                let others = near[node].iter().filter(|other| inner.contains(other));
                mean(others.map(|&other| rim.part(places.turns[other])))
            };
            let wishes: Vec<Option<f64>> = nodes.iter().map(wish).collect();
            for (node, part) in spread(nodes, &wishes) {
                places.turns[node] = rim.turns(part + turned);
            }
            self.settle_ring(&mut places, ring);
        }
        self.swapped(&mut places, &near);
        self.settle(&places.turns).unwrap_or(places)
    }

    /// For each node those that it has arrows with.
    fn near(&self) -> Vec<Vec<usize>> {
        let mut near = vec![Vec::new(); self.halves.len()];
        for &(a, b) in &self.links {
            near[a].push(b);
            near[b].push(a);
        }
        near
    }

    /// How far the middles of any two boxes of a ring have to be apart at the most.
    fn widest(&self, nodes: &[usize]) -> Point {
        let larger = |a: Point, &node: &usize| {
            let half = self.halves[node];
            point(a.x.max(half.x), a.y.max(half.y))
        };
        nodes.iter().fold(Point::default(), larger) * 2.0 + self.gap
    }

    /// Lets two nodes of a ring change places, wherever that makes the lines of their arrows shorter.
    fn swapped(&self, places: &mut Places, near: &[Vec<usize>]) {
        for _ in 0..6 {
            for nodes in &self.rings {
                for (k, &a) in nodes.iter().enumerate() {
                    for &b in &nodes[..k] {
                        let (at, there) = (places.middles[a], places.middles[b]);
                        let gain = |node: usize, other: usize, from: Point, to: Point| -> f64 {
                            let ends = near[node].iter().filter(|&&end| end != other);
                            ends.map(|&end| places.middles[end])
                                .map(|end| (end - from).length() - (end - to).length())
                                .sum()
                        };
                        if gain(a, b, at, there) + gain(b, a, there, at) > 1e-6 {
                            places.turns.swap(a, b);
                            places.middles.swap(a, b);
                        }
                    }
                }
            }
        }
    }

    /// The places for these angles; None where two nodes would be at the same one.
    pub fn settle(&self, turns: &[f64]) -> Option<Places> {
        let mut places = Places {
            turns: turns.to_vec(),
            middles: vec![Point::default(); turns.len()],
            radii: vec![0.0],
        };
        for ring in 1..self.rings.len() {
            self.settle_ring(&mut places, ring);
        }
        (self.outer(&places) < 1e5).then_some(places)
    }

    /// Gives a ring its radius: the least at which its boxes meet neither each other nor those further in.
    fn settle_ring(&self, places: &mut Places, ring: usize) {
        let nodes = &self.rings[ring];
        let ways: Vec<Point> = nodes.iter().map(|&n| direction(places.turns[n])).collect();
        let mut radius = places.radii[ring - 1] + self.step;
        let mut taken = Vec::new();
        for (k, &node) in nodes.iter().enumerate() {
            for (j, &other) in nodes[..k].iter().enumerate() {
                let (room, off) = (self.room(node, other), ways[k] - ways[j]);
                let least = (room.x / off.x.abs()).min(room.y / off.y.abs());
                radius = radius.max(least.min(1e6));
            }
            for &other in self.rings[..ring].iter().flatten() {
                let room = self.room(node, other);
                taken.extend(blocked(ways[k], places.middles[other], room));
            }
        }
        taken.sort_by(|a, b| a.0.total_cmp(&b.0));
        for (from, to) in taken {
            if from < radius && radius < to {
                radius = to;
            }
        }
        for (&node, way) in nodes.iter().zip(ways) {
            places.middles[node] = way * radius;
        }
        places.radii.push(radius);
    }

    /// How far the middles of two boxes have to be apart, beside or above each other.
    fn room(&self, a: usize, b: usize) -> Point {
        self.halves[a] + self.halves[b] + self.gap
    }
}

/// The radii at which a box in this direction would meet one with this middle: between two numbers.
fn blocked(way: Point, middle: Point, room: Point) -> Option<(f64, f64)> {
    let along = |way: f64, middle: f64, room: f64| {
        if way.abs() < 1e-9 {
            let (least, most) = (f64::NEG_INFINITY, f64::INFINITY);
            return (middle.abs() < room).then_some((least, most));
        }
        let (a, b) = ((middle - room) / way, (middle + room) / way);
        Some((a.min(b), a.max(b)))
    };
    let (x, y) = (
        along(way.x, middle.x, room.x)?,
        along(way.y, middle.y, room.y)?,
    );
    let (from, to) = (x.0.max(y.0), x.1.min(y.1));
    (from < to).then_some((from, to))
}

#[cfg(test)]
mod tests {
    use super::*;

    /// Rings of so many nodes each, every node with an arrow from one of the ring before it.
    fn task(sizes: &[usize]) -> Task {
        let mut rings: Vec<Vec<usize>> = Vec::new();
        let (mut count, mut links) = (0, Vec::new());
        for &size in sizes {
            let nodes: Vec<usize> = (count..count + size).collect();
            if let Some(inner) = rings.last() {
                links.extend(nodes.iter().map(|&node| (inner[node % inner.len()], node)));
            }
            rings.push(nodes);
            count += size;
        }
        let half = |node| {
            point(
                25.0 + 10.0 * (node % 4) as f64,
                15.0 + 7.0 * (node % 3) as f64,
            )
        };
        Task {
            halves: (0..count).map(half).collect(),
            rings,
            links,
            gap: point(20.0, 18.0),
            step: 5.0,
        }
    }

    /// Node 0 is in the middle, all others on their rings, each further out than the one before, and no two boxes meet.
    #[test]
    fn boxes_are_on_their_rings_and_apart() {
        let cases: [&[usize]; 7] = [
            &[1],
            &[1, 1],
            &[1, 2, 4, 2],
            &[1; 40],
            &[1, 49],
            &[1, 16, 100, 200, 10],
            &[1; 512],
        ];
        for sizes in cases {
            let task = task(sizes);
            for many in [true, task.halves.len() > 50] {
                let places = task.places(many);
                assert_eq!(places.radii.len(), sizes.len());
                assert!(places.radii.windows(2).all(|two| two[1] >= two[0] + 4.9));
                for (nodes, radius) in task.rings.iter().zip(&places.radii) {
                    let off = |node: &usize| places.middles[*node].length() - radius;
                    assert!(nodes.iter().all(|node| off(node).abs() < 1e-6));
                }
                let frames: Vec<Frame> = (0..task.halves.len())
                    .map(|node| task.frame(&places, node))
                    .collect();
                for (k, frame) in frames.iter().enumerate() {
                    assert!(frames[..k].iter().all(|other| !frame.meets(other, 10.0)));
                }
            }
        }
    }

    #[test]
    fn radii_are_blocked_between_two_numbers() {
        let room = point(10.0, 5.0);
        let right = point(1.0, 0.0);
        assert_eq!(blocked(right, point(50.0, 0.0), room), Some((40.0, 60.0)));
        assert_eq!(blocked(right, point(50.0, 5.0), room), None);
        assert_eq!(
            blocked(point(0.0, 1.0), point(0.0, 0.0), room),
            Some((-5.0, 5.0))
        );
        assert_eq!(blocked(point(0.0, 1.0), point(11.0, 0.0), room), None);
    }
}
