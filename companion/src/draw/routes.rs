//! The arrows of a drawing: of the curves and the places for labels that are tried the best ones.
use crate::draw::curves::{around, between, labelled, Arrow};
use crate::draw::geometry::{Curve, Frame, Point};
use crate::draw::grid::{dot, Grid};
use std::collections::BTreeSet;

/// An arrow to be drawn: the nodes that it leads from and to, and half of its label's box, if it has a label.
#[derive(Clone, Copy)]
pub struct Wanted {
    pub from: usize,
    pub to: usize,
    pub label: Option<Point>,
}

/// What is not as it should be, the worst first.
#[derive(Clone, Copy, Debug, PartialEq, Eq, PartialOrd, Ord)]
pub struct Faults {
    /// Boxes and labels that are covered by a label.
    pub covered: usize,
    /// Boxes that an arrow runs through.
    pub through: usize,
    /// Labels with another arrow through their middle, to which they seem to belong.
    pub astray: usize,
    /// Labels with another arrow through them.
    pub crossed: usize,
}

/// Nearer than that to a box an arrow counts as through it.
const CLEAR: f64 = 6.0;
/// The points of a curve that are looked at are so far apart.
const APART: f64 = 5.0;
/// An arrow nearer than that to another one is hard to tell from it.
const TELL: f64 = 7.0;
/// An arrow nearer than that to the middle of another one's label may be taken for that one.
const ASTRAY: f64 = 5.0;
/// Nearer than that to a label no other label, no box and no other arrow should be.
const ROOM: f64 = 3.0;
/// The cost of an arrow through a box, and of a label over one: more than anything else together.
const NEVER: f64 = 1e6;
/// With more arrows than that they are not looked at a second time.
const SECOND: usize = 200;

struct Router<'a> {
    frames: &'a [Frame],
    wanted: &'a [Wanted],
    pairs: BTreeSet<(usize, usize)>,
    many: bool,
    boxes: Grid<usize>,
    /// Points of the arrows that have been chosen.
    lines: Grid<(usize, Point)>,
    labels: Grid<(usize, Frame)>,
    arrows: Vec<Option<Arrow>>,
}

/// The arrows between boxes, and their faults. Of many, only a few curves are tried for each.
pub fn routed(frames: &[Frame], wanted: &[Wanted], many: bool) -> (Vec<Arrow>, Faults) {
    let far = |frame: &Frame| {
        let (middle, half) = (frame.middle, frame.half);
        (middle.x.abs() + half.x).max(middle.y.abs() + half.y)
    };
    let reach = 1.5 * frames.iter().map(far).fold(100.0, f64::max);
    let mut router = Router {
        frames,
        wanted,
        pairs: wanted.iter().map(|arrow| (arrow.from, arrow.to)).collect(),
        many,
        boxes: Grid::new(reach, CLEAR),
        lines: Grid::new(reach, TELL),
        labels: Grid::new(reach, ROOM),
        arrows: vec![None; wanted.len()],
    };
    for (node, frame) in frames.iter().enumerate() {
        router.boxes.add(frame, node);
    }
    router.run();
    let faults = router.faults();
    (router.arrows.into_iter().flatten().collect(), faults)
}

/// The cost of a curve wherever it is: by its length and its bend.
fn base_cost(curve: &Curve) -> f64 {
    let [start, first, second, end] = curve.0;
    let length = (first - start).length() + (second - first).length() + (end - second).length();
    let bend = (curve.at(0.5) - (start + end) * 0.5).length();
    0.4 * length + 0.6 * bend
}

impl Router<'_> {
    /// First the curves alone, short arrows first, then the loops and the labels, and then all of it once more.
    fn run(&mut self) {
        let mut order: Vec<usize> = (0..self.wanted.len()).collect();
        order.sort_by(|&a, &b| self.span(a).total_cmp(&self.span(b)));
        let (loops, others): (Vec<usize>, Vec<usize>) =
            order.into_iter().partition(|&k| self.is_loop(k));
        let second = !self.many && others.len() <= SECOND;
        for _ in 0..=usize::from(second) {
            for &k in &others {
                self.choose(k, self.curves(k), |_, curve| {
                    vec![Arrow { curve, label: None }]
                });
            }
        }
        let all: Vec<usize> = loops.into_iter().chain(others).collect();
        for &k in &all {
            self.place(k, false);
        }
        if second {
            for &k in all.iter().chain(&all) {
                self.place(k, true);
            }
        }
    }

    fn span(&self, k: usize) -> f64 {
        let Wanted { from, to, .. } = self.wanted[k];
        (self.frames[to].middle - self.frames[from].middle).length()
    }

    fn is_loop(&self, k: usize) -> bool {
        self.wanted[k].from == self.wanted[k].to
    }

    fn curves(&self, k: usize) -> Vec<Curve> {
        let Wanted { from, to, .. } = self.wanted[k];
        let back = self.pairs.contains(&(to, from));
        between(&self.frames[from], &self.frames[to], back, self.many)
    }

    /// Places an arrow's label, and the whole arrow where it is a loop, where the label covers something, or where it is to.
    fn place(&mut self, k: usize, whole: bool) {
        let Wanted { from, label, .. } = self.wanted[k];
        if self.is_loop(k) {
            let loops = around(&self.frames[from], label);
            let curves = loops.iter().map(|arrow| arrow.curve).collect();
            self.choose(k, curves, |at, _| vec![loops[at]]);
        } else if label.is_some() {
            let now = self.arrows[k].iter().map(|arrow| arrow.curve).collect();
            let alone = !whole && self.choose(k, now, |_, curve| labelled(curve, label)) < NEVER;
            if !alone {
                self.choose(k, self.curves(k), |_, curve| labelled(curve, label));
            }
        }
    }

    /// Takes the best of some curves for an arrow, each with the best of the arrows that it may be, and gives the cost.
    fn choose(
        &mut self,
        k: usize,
        curves: Vec<Curve>,
        arrows: impl Fn(usize, Curve) -> Vec<Arrow>,
    ) -> f64 {
        self.take_away(k);
        let bases = curves.iter().map(base_cost).enumerate();
        let mut order: Vec<(usize, f64)> = bases.collect();
        order.sort_by(|a, b| a.1.total_cmp(&b.1));
        let mut best: (f64, Option<Arrow>) = (f64::INFINITY, None);
        for (at, base) in order {
            if base >= best.0 {
                break;
            }
            let curve_cost = base + self.curve_cost(k, &curves[at]);
            if curve_cost >= best.0 {
                continue;
            }
            for arrow in arrows(at, curves[at]) {
                let cost = curve_cost + self.label_cost(k, &arrow);
                if cost < best.0 {
                    best = (cost, Some(arrow));
                }
            }
        }
        if let Some(arrow) = best.1 {
            self.put(k, arrow);
        }
        best.0
    }

    /// How bad a curve is for an arrow: through boxes, through labels, along or over other arrows.
    fn curve_cost(&self, k: usize, curve: &Curve) -> f64 {
        let Wanted { from, to, .. } = self.wanted[k];
        let points = self.points(curve);
        let through = self.through(k, &points).len() as f64;
        if self.many {
            return NEVER * through;
        }
        let alone = |at: &&Point| {
            let off = |node: usize| self.frames[node].outside(**at);
            from == to || off(from).min(off(to)) > 2.0 * TELL
        };
        let beside = |at: &&Point| {
            let near = |&(other, there): &(usize, Point)| {
                let off = there - **at;
                other != k && off.x * off.x + off.y * off.y < TELL * TELL
            };
            self.lines.at(**at).iter().any(near)
        };
        let close = points.iter().filter(alone).filter(beside).count();
        let (crossed, astray) = self.crossed(k, &points);
        NEVER * through + 40.0 * (crossed + 4 * astray) as f64 + 12.0 * close as f64
    }

    /// The points of a curve that are looked at.
    fn points(&self, curve: &Curve) -> Vec<Point> {
        let few = self.wanted.len() <= SECOND;
        curve.points(if few { APART } else { 2.0 * APART })
    }

    /// The boxes that a curve runs through and does not begin or end at.
    fn through(&self, k: usize, points: &[Point]) -> BTreeSet<usize> {
        let Wanted { from, to, .. } = self.wanted[k];
        let near = |&at: &Point| {
            let strange = move |&node: &usize| {
                node != from && node != to && self.frames[node].outside(at) < CLEAR
            };
            self.boxes.at(at).iter().copied().filter(strange)
        };
        points.iter().flat_map(near).collect()
    }

    /// Through how many labels of other arrows a curve runs, and through the middles of how many.
    fn crossed(&self, k: usize, points: &[Point]) -> (usize, usize) {
        let (mut met, mut middle) = (BTreeSet::new(), BTreeSet::new());
        for &at in points {
            for &(other, label) in self.labels.at(at) {
                if other != k && label.meets(&dot(at), ROOM) {
                    met.insert(other);
                    if (label.middle - at).length() < ASTRAY {
                        middle.insert(other);
                    }
                }
            }
        }
        (met.len(), middle.len())
    }

    /// How bad the place of a label is: over boxes or labels, over the arrow's own ends, over other arrows, far from the middle.
    fn label_cost(&self, k: usize, arrow: &Arrow) -> f64 {
        let Some(label) = arrow.label else {
            return 0.0;
        };
        let covered = self.covered(k, &label, ROOM);
        let tip = arrow.curve.0[3] - arrow.curve.heading() * 8.0;
        let ends = [tip, arrow.curve.0[0]];
        let own = !self.is_loop(k) && ends.iter().any(|&end| label.meets(&dot(end), 5.0));
        let (mut under, mut middle) = (BTreeSet::new(), BTreeSet::new());
        for (other, at) in self.lines.near(&label) {
            if other != k && label.meets(&dot(at), ROOM) {
                under.insert(other);
                if (label.middle - at).length() < ASTRAY {
                    middle.insert(other);
                }
            }
        }
        let off = (arrow.curve.at(0.5) - label.middle).length();
        let bad = under.len() + 4 * middle.len() + usize::from(own);
        NEVER * covered as f64 + 40.0 * bad as f64 + 0.2 * off
    }

    /// How many boxes and labels a label covers, or is nearer to than this.
    fn covered(&self, k: usize, label: &Frame, gap: f64) -> usize {
        let meets = |&node: &usize| label.meets(&self.frames[node], gap);
        let other = |(other, there): &(usize, Frame)| *other != k && label.meets(there, gap);
        let boxes = self.boxes.near(label).filter(meets);
        boxes.count() + self.labels.near(label).filter(other).count()
    }

    fn put(&mut self, k: usize, arrow: Arrow) {
        if !self.many {
            for at in self.points(&arrow.curve) {
                self.lines.add(&dot(at), (k, at));
            }
        }
        if let Some(label) = arrow.label {
            self.labels.add(&label, (k, label));
        }
        self.arrows[k] = Some(arrow);
    }

    fn take_away(&mut self, k: usize) {
        let Some(arrow) = self.arrows[k].take() else {
            return;
        };
        for at in self.points(&arrow.curve) {
            self.lines.remove(&dot(at), |thing| thing.0 == k);
        }
        if let Some(label) = arrow.label {
            self.labels.remove(&label, |thing| thing.0 == k);
        }
    }

    fn faults(&self) -> Faults {
        let mut faults = Faults {
            covered: 0,
            through: 0,
            astray: 0,
            crossed: 0,
        };
        for (k, arrow) in self.arrows.iter().enumerate() {
            let Some(arrow) = arrow else { continue };
            let points = self.points(&arrow.curve);
            faults.covered += arrow.label.map_or(0, |label| self.covered(k, &label, 1.0));
            faults.through += self.through(k, &points).len();
            let (crossed, astray) = self.crossed(k, &points);
            faults.astray += astray;
            faults.crossed += crossed;
        }
        faults
    }
}

#[cfg(test)]
mod tests {
    use super::*;
    use crate::draw::geometry::{direction, point};

    /// Boxes on a ring around one in the middle, with arrows from each to each and at each.
    fn wheel(nodes: usize, radius: f64) -> (Vec<Frame>, Vec<Wanted>) {
        let at = |node: usize| match node {
            0 => Point::default(),
            _ => direction(node as f64 / (nodes as f64 - 1.0)) * radius,
        };
        let frame = |node| Frame {
            middle: at(node),
            half: point(25.0, 16.0),
        };
        let pairs = (0..nodes).flat_map(|from| (0..nodes).map(move |to| (from, to)));
        let wanted = pairs.map(|(from, to)| Wanted {
            from,
            to,
            label: Some(point(6.0, 7.0)),
        });
        ((0..nodes).map(frame).collect(), wanted.collect())
    }

    /// With enough room nothing is at fault, and every arrow goes from border to border.
    #[test]
    fn arrows_find_their_ways() {
        for nodes in [1, 2, 3, 5, 7] {
            let (frames, wanted) = wheel(nodes, 300.0);
            let (arrows, faults) = routed(&frames, &wanted, false);
            assert_eq!(arrows.len(), wanted.len());
            assert_eq!((faults.covered, faults.through, faults.astray), (0, 0, 0));
            for (arrow, Wanted { from, to, .. }) in arrows.iter().zip(wanted) {
                assert!(frames[from].outside(arrow.curve.0[0]).abs() < 0.01);
                assert!(frames[to].outside(arrow.curve.0[3]).abs() < 0.01);
            }
        }
    }

    /// Without room the faults are counted.
    #[test]
    fn faults_are_found() {
        let (frames, wanted) = wheel(9, 80.0);
        let (_, faults) = routed(&frames, &wanted, false);
        assert!(faults.covered > 0 && faults.crossed > 0);
    }

    #[test]
    fn of_many_arrows_there_is_one_each() {
        let (frames, mut wanted) = wheel(60, 2000.0);
        wanted.iter_mut().for_each(|arrow| arrow.label = None);
        let (arrows, _) = routed(&frames, &wanted, true);
        assert_eq!(arrows.len(), wanted.len());
        assert!(arrows.iter().all(|arrow| arrow.label.is_none()));
    }
}
