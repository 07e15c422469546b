//! What lies near a place, found without looking at everything.
use crate::draw::geometry::{point, Frame, Point};

/// Things in the cells of a square around the origin; what is outside of it counts for the outermost cells.
pub struct Grid<T> {
    cells: Vec<Vec<T>>,
    across: usize,
    size: f64,
    gap: f64,
}

impl<T: Copy> Grid<T> {
    /// For a square that reaches this far to each side, and for things that are looked for from that far away.
    pub fn new(reach: f64, gap: f64) -> Grid<T> {
        let size = (reach / 256.0).max(16.0);
        let across = (2.0 * reach / size).ceil() as usize + 1;
        Grid {
            cells: vec![Vec::new(); across * across],
            across,
            size,
            gap,
        }
    }

    /// The row or column that a coordinate lies in.
    fn line(&self, at: f64) -> usize {
        let line = (at / self.size + self.across as f64 / 2.0).max(0.0) as usize;
        line.min(self.across - 1)
    }

    /// The numbers of the cells that a box lies in.
    fn cells(&self, frame: &Frame, gap: f64) -> impl Iterator<Item = usize> {
        let half = frame.half + point(gap, gap);
        let (low, high) = (frame.middle - half, frame.middle + half);
        let x = self.line(low.x)..=self.line(high.x);
        let y = self.line(low.y)..=self.line(high.y);
        let across = self.across;
        y.flat_map(move |y| x.clone().map(move |x| y * across + x))
    }

    pub fn add(&mut self, frame: &Frame, thing: T) {
        for cell in self.cells(frame, self.gap) {
            self.cells[cell].push(thing);
        }
    }

    /// Takes away what is no longer wanted where a box is.
    pub fn remove(&mut self, frame: &Frame, unwanted: impl Fn(&T) -> bool) {
        for cell in self.cells(frame, self.gap) {
            self.cells[cell].retain(|thing| !unwanted(thing));
        }
    }

    /// What may be near to a point, and more.
    pub fn at(&self, at: Point) -> &[T] {
        &self.cells[self.line(at.y) * self.across + self.line(at.x)]
    }

    /// What may be near to a box, and more, some things more than once.
    pub fn near(&self, frame: &Frame) -> impl Iterator<Item = T> + '_ {
        self.cells(frame, 0.0)
            .flat_map(|cell| self.cells[cell].iter().copied())
    }
}

/// A box without a size.
pub fn dot(at: Point) -> Frame {
    Frame {
        middle: at,
        half: Point::default(),
    }
}

#[cfg(test)]
mod tests {
    use super::*;

    #[test]
    fn what_is_near_is_found() {
        let mut grid = Grid::new(100.0, 7.0);
        let places = [(0.0, 0.0), (50.0, 3.0), (-99.0, 99.0), (300.0, -10.0)];
        for (k, &(x, y)) in places.iter().enumerate() {
            grid.add(&dot(point(x, y)), k);
        }
        for (k, &(x, y)) in places.iter().enumerate() {
            assert!(grid.at(point(x, y)).contains(&k));
            assert!(grid.at(point(x + 6.9, y - 6.9)).contains(&k));
        }
        assert!(grid.at(point(-50.0, 0.0)).is_empty());
        let all = Frame {
            middle: point(0.0, 0.0),
            half: point(400.0, 400.0),
        };
        assert!((0..4).all(|k| grid.near(&all).any(|thing| thing == k)));
        grid.remove(&dot(point(0.0, 0.0)), |&thing| thing == 0);
        assert!(grid.near(&all).all(|thing| thing != 0));
    }
}
