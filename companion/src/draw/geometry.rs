//! Points, boxes and curves of a drawing. x grows to the right and y downwards.
use std::ops::{Add, Mul, Sub};

#[derive(Clone, Copy, Debug, Default, PartialEq)]
pub struct Point {
    pub x: f64,
    pub y: f64,
}

pub fn point(x: f64, y: f64) -> Point {
    Point { x, y }
}

impl Add for Point {
    type Output = Point;
    fn add(self, other: Point) -> Point {
        point(self.x + other.x, self.y + other.y)
    }
}

impl Sub for Point {
    type Output = Point;
    fn sub(self, other: Point) -> Point {
        point(self.x - other.x, self.y - other.y)
    }
}

impl Mul<f64> for Point {
    type Output = Point;
    fn mul(self, by: f64) -> Point {
        point(self.x * by, self.y * by)
    }
}

impl Point {
    pub fn length(self) -> f64 {
        (self.x * self.x + self.y * self.y).sqrt()
    }

    /// A quarter turn to the right of it.
    pub fn right(self) -> Point {
        point(-self.y, self.x)
    }

    /// As long as 1, or nothing where it is nothing.
    pub fn unit(self) -> Point {
        self * (1.0 / self.length().max(1e-9))
    }
}

/// The direction of an angle, in turns to the right from the x axis. By a series, so that it is the same on every machine.
pub fn direction(turns: f64) -> Point {
    let quarter = (turns * 4.0).round();
    let angle = (turns * 4.0 - quarter) * std::f64::consts::FRAC_PI_2;
    let (mut cos, mut sin, mut term) = (0.0, 0.0, 1.0);
    for power in 0..20 {
        match power % 4 {
            0 => cos += term,
            1 => sin += term,
            2 => cos -= term,
            _ => sin -= term,
        }
        term *= angle / f64::from(power + 1);
    }
    match quarter.rem_euclid(4.0) as u8 {
        0 => point(cos, sin),
        1 => point(-sin, cos),
        2 => point(-cos, -sin),
        _ => point(sin, -cos),
    }
}

/// The radius of a box's corners.
pub const ROUND: f64 = 6.0;

/// A box with its sides along the axes.
#[derive(Clone, Copy, Debug, PartialEq)]
pub struct Frame {
    pub middle: Point,
    /// Half of its width and height.
    pub half: Point,
}

impl Frame {
    /// Do two boxes overlap, or are nearer than this?
    pub fn meets(&self, other: &Frame, gap: f64) -> bool {
        let (off, room) = (self.middle - other.middle, self.half + other.half);
        off.x.abs() < room.x + gap && off.y.abs() < room.y + gap
    }

    /// How far a point lies outside of the box with its rounded corners; below 0 inside.
    pub fn outside(&self, at: Point) -> f64 {
        let off = at - self.middle;
        let (x, y) = (
            off.x.abs() - self.half.x + ROUND,
            off.y.abs() - self.half.y + ROUND,
        );
        point(x.max(0.0), y.max(0.0)).length() + x.max(y).min(0.0) - ROUND
    }

    /// Where the line from the middle to a point outside leaves the box.
    pub fn towards(&self, at: Point) -> Point {
        let (mut inside, mut outside) = (0.0, 1.0);
        for _ in 0..24 {
            let between = (inside + outside) / 2.0;
            if self.outside(self.middle + (at - self.middle) * between) < 0.0 {
                inside = between;
            } else {
                outside = between;
            }
        }
        self.middle + (at - self.middle) * outside
    }
}

/// A cubic Bezier curve.
#[derive(Clone, Copy, Debug, PartialEq)]
pub struct Curve(pub [Point; 4]);

impl Curve {
    /// The curve with one point that pulls it.
    pub fn pulled(from: Point, by: Point, to: Point) -> Curve {
        let near = |end: Point| end + (by - end) * (2.0 / 3.0);
        Curve([from, near(from), near(to), to])
    }

    pub fn at(&self, t: f64) -> Point {
        let u = 1.0 - t;
        let [a, b, c, d] = self.0;
        a * (u * u * u) + b * (3.0 * u * u * t) + c * (3.0 * u * t * t) + d * (t * t * t)
    }

    /// Points along it, of which neighbours are about this far apart.
    pub fn points(&self, apart: f64) -> Vec<Point> {
        let [a, b, c, d] = self.0;
        let length = (b - a).length() + (c - b).length() + (d - c).length();
        let count = (length / apart).ceil().clamp(4.0, 2000.0) as usize;
        (0..=count)
            .map(|k| self.at(k as f64 / count as f64))
            .collect()
    }

    /// The part of it up to where it is this far from its end, in a straight line.
    pub fn shortened(&self, by: f64) -> Curve {
        let [a, b, c, d] = self.0;
        let (mut far, mut near) = (0.0, 1.0);
        for _ in 0..24 {
            let t = (far + near) / 2.0;
            match (self.at(t) - d).length() > by {
                true => far = t,
                false => near = t,
            }
        }
        let between = |from: Point, to: Point| from + (to - from) * far;
        let (ab, bc, cd) = (between(a, b), between(b, c), between(c, d));
        Curve([
            a,
            ab,
            between(ab, bc),
            between(between(ab, bc), between(bc, cd)),
        ])
    }

    /// Its direction where it ends.
    pub fn heading(&self) -> Point {
        (self.0[3] - self.0[2]).unit()
    }
}

/// Do two lines, each between two points, cross?
pub fn cross(a: [Point; 2], b: [Point; 2]) -> bool {
    let side = |line: [Point; 2], at: Point| {
        let (along, off) = (line[1] - line[0], at - line[0]);
        along.x * off.y - along.y * off.x
    };
    side(a, b[0]) * side(a, b[1]) < 0.0 && side(b, a[0]) * side(b, a[1]) < 0.0
}

#[cfg(test)]
mod tests {
    use super::*;

    #[test]
    fn directions_are_those_of_sine_and_cosine() {
        for k in -100..=100 {
            let turns = f64::from(k) / 37.0;
            let (sin, cos) = (turns * std::f64::consts::TAU).sin_cos();
            assert!((direction(turns) - point(cos, sin)).length() < 1e-12);
        }
    }

    #[test]
    fn boxes_have_an_inside_and_an_outside() {
        let frame = Frame {
            middle: point(10.0, 20.0),
            half: point(30.0, 15.0),
        };
        assert_eq!(frame.outside(point(10.0, 20.0)), -15.0);
        assert_eq!(frame.outside(point(45.0, 20.0)), 5.0);
        for turns in 0..16 {
            let far = frame.middle + direction(f64::from(turns) / 16.0) * 100.0;
            assert!(frame.outside(frame.towards(far)).abs() < 1e-3);
        }
        let other = |x, y| Frame {
            middle: point(x, y),
            half: point(5.0, 5.0),
        };
        assert!(frame.meets(&other(44.0, 20.0), 0.0));
        assert!(!frame.meets(&other(46.0, 20.0), 0.0));
        assert!(frame.meets(&other(46.0, 20.0), 2.0));
        assert!(!frame.meets(&other(10.0, 41.0), 0.0));
    }

    #[test]
    fn lines_cross_or_not() {
        let line = |a, b, c, d| [point(a, b), point(c, d)];
        assert!(cross(line(0., 0., 2., 2.), line(0., 2., 2., 0.)));
        assert!(!cross(line(0., 0., 1., 1.), line(0., 3., 3., 0.)));
        assert!(!cross(line(0., 0., 2., 2.), line(2., 2., 4., 0.)));
    }

    #[test]
    fn curves_begin_and_end_at_their_ends() {
        let curve = Curve::pulled(point(0., 0.), point(5., 8.), point(10., 0.));
        let points = curve.points(1.0);
        assert_eq!(points.first(), Some(&point(0., 0.)));
        assert!((*points.last().unwrap() - point(10., 0.)).length() < 1e-9);
        assert!((curve.at(0.5) - point(5., 4.)).length() < 1e-9);
        assert!((curve.heading() - point(5., -8.).unit()).length() < 1e-9);
        let short = curve.shortened(3.0);
        assert!(((short.0[3] - point(10., 0.)).length() - 3.0).abs() < 1e-3);
        let far = |at: Point| points.iter().map(move |&there| (there - at).length());
        for at in short.points(1.0) {
            assert!(far(at).fold(9.0, f64::min) < 0.8);
        }
    }
}
