//! The curves that are tried for an arrow, and the places for its label.
use crate::draw::geometry::{point, Curve, Frame, Point};

#[derive(Clone, Copy)]
pub struct Arrow {
    pub curve: Curve,
    pub label: Option<Frame>,
}

/// How far along an arrow its label may be, the best place first.
const ALONG: [f64; 17] = [
    0.5, 0.45, 0.55, 0.4, 0.6, 0.35, 0.65, 0.3, 0.7, 0.25, 0.75, 0.2, 0.8, 0.16, 0.84, 0.12, 0.88,
];
/// How far curves are bent to the right, in lengths of the arrow.
const BENDS: [f64; 13] = [
    0.0, 0.1, -0.1, 0.18, -0.18, 0.3, -0.3, 0.45, -0.45, 0.7, -0.7, 1.0, -1.0,
];
/// A curve that goes beside one the other way is bent at least so far.
const BESIDE: f64 = 24.0;

/// Curves between two boxes: straight, or pulled to a side at the middle or nearer to one end. `back`: is there an arrow the other
/// way, too? Then none is straight. Only a few curves, if there are many arrows.
pub fn between(from: &Frame, to: &Frame, back: bool, many: bool) -> Vec<Curve> {
    let (start, end) = (from.towards(to.middle), to.towards(from.middle));
    let (along, across) = (end - start, (to.middle - from.middle).right() * -1.0);
    let bends = &BENDS[usize::from(back)..if many { 5 } else { BENDS.len() }];
    let mut curves = Vec::new();
    for &bend in bends {
        let pulls: &[f64] = match bend.abs() < 0.3 {
            true => &[0.5],
            false => &[0.5, 0.25, 0.75],
        };
        let least = if back { BESIDE } else { 0.0 };
        let off = across.unit() * (bend.abs() * across.length()).max(least) * bend.signum();
        for by in pulls.iter().map(|&pull| start + along * pull + off) {
            if from.outside(by) > 0.0 && to.outside(by) > 0.0 {
                curves.push(Curve::pulled(from.towards(by), by, to.towards(by)));
            }
        }
    }
    if curves.is_empty() {
        curves.push(Curve::pulled(start, (start + end) * 0.5, end));
    }
    curves
}

/// Loops at a box, small arcs at each of its sides, with their labels behind them; those that point away from the origin first.
pub fn around(frame: &Frame, label: Option<Point>) -> Vec<Arrow> {
    let half = frame.half;
    let wide = (half.x - 16.0).max(0.0);
    let mut bases = Vec::new();
    for sign in [1.0, -1.0] {
        let (up, right) = (point(0.0, -sign), point(sign, 0.0));
        bases.push((point(half.x * sign, 0.0), right));
        for across in [0.0, wide, -wide] {
            bases.push((point(across, -half.y * sign), up));
        }
    }
    let outward = |(base, out): &(Point, Point)| {
        let away = frame.middle.unit();
        out.x * away.x + out.y * away.y - base.x.abs() * out.y.abs() * 1e-3
    };
    bases.sort_by(|a, b| outward(b).total_cmp(&outward(a)));
    let arc = |(base, out): (Point, Point)| {
        let (base, side) = (frame.middle + base, out.right());
        let leg = |way: f64| base + side * (8.0 * way);
        let pull = |way: f64| base + side * (15.0 * way) + out * 30.0;
        let curve = Curve([leg(-1.0), pull(-1.0), pull(1.0), leg(1.0)]);
        let label = label.map(|half| Frame {
            middle: base + out * (24.5 + (half.x * out.x).abs() + (half.y * out.y).abs()),
            half,
        });
        Arrow { curve, label }
    };
    bases.into_iter().map(arc).collect()
}

/// A curve with its label at each place along it.
pub fn labelled(curve: Curve, label: Option<Point>) -> Vec<Arrow> {
    let at = |t: f64| {
        let label = label.map(|half| Frame {
            middle: curve.at(t),
            half,
        });
        Arrow { curve, label }
    };
    ALONG.map(at).to_vec()
}

#[cfg(test)]
mod tests {
    use super::*;

    fn frame(x: f64, y: f64, half: Point) -> Frame {
        let middle = point(x, y);
        Frame { middle, half }
    }

    /// Curves begin and end at the boxes' borders, whatever their sizes.
    #[test]
    fn curves_go_from_border_to_border() {
        let from = frame(0.0, 0.0, point(80.0, 20.0));
        for to in [
            frame(130.0, 0.0, point(20.0, 20.0)),
            frame(90.0, 70.0, point(50.0, 30.0)),
            frame(0.0, -60.0, point(20.0, 20.0)),
        ] {
            for (back, many) in [(false, false), (true, false), (false, true), (true, true)] {
                let curves = between(&from, &to, back, many);
                assert!(!curves.is_empty());
                for curve in curves {
                    assert!(from.outside(curve.0[0]).abs() < 0.01);
                    assert!(to.outside(curve.0[3]).abs() < 0.01);
                }
            }
        }
    }

    #[test]
    fn loops_are_outside_of_the_box() {
        for half in [point(20.0, 14.0), point(60.0, 40.0)] {
            let at = frame(5.0, 5.0, half);
            for arrow in around(&at, Some(point(30.0, 8.0))) {
                let points = arrow.curve.points(2.0);
                assert!(points.iter().all(|&there| at.outside(there) > -0.01));
                assert!(at.outside(arrow.curve.0[0]).abs() < 0.01);
                assert!(at.outside(arrow.curve.0[3]).abs() < 0.01);
                assert!(!at.meets(&arrow.label.unwrap(), 0.0));
            }
        }
    }
}
