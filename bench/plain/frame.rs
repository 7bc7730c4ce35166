//! Scopes, which are oriented boxes, and boxes along the axes of the world.

use crate::fraction::Fraction;

pub type Point = [Fraction; 3];
pub const X: usize = 0;
pub const Y: usize = 1;
pub const Z: usize = 2;

/// An axis of the world, along it or against it.
#[derive(Clone, Copy, PartialEq)]
pub struct Direction {
    axis: u8,
    against: bool,
}

const fn along(axis: u8) -> Direction {
    Direction { axis, against: false }
}

impl Direction {
    pub fn opposite(self) -> Direction {
        Direction { axis: self.axis, against: !self.against }
    }
}

pub type Frame = [Direction; 3];

/// A position, a direction for each own axis, and a size along each.
#[derive(Clone, Copy, PartialEq)]
pub struct Scope {
    pub at: Point,
    pub frame: Frame,
    pub size: Point,
}

fn quarter([x, y, z]: Frame, axis: usize) -> Frame {
    match axis {
        X => [x, z, y.opposite()],
        Y => [z.opposite(), y, x],
        _ => [y, x.opposite(), z],
    }
}

impl Scope {
    pub fn ground(x: Fraction, z: Fraction, width: Fraction, depth: Fraction) -> Scope {
        let frame = [along(0), along(1), along(2)];
        Scope { at: [x, Fraction::ZERO, z], frame, size: [width, Fraction::ZERO, depth] }
    }

    fn move_along(&mut self, own: usize, by: Fraction) {
        let Direction { axis, against } = self.frame[own];
        let coordinate = &mut self.at[axis as usize];
        *coordinate = if against { *coordinate - by } else { *coordinate + by };
    }

    /// The world's point of local coordinates.
    pub fn place(mut self, local: Point) -> Point {
        for (own, by) in local.into_iter().enumerate().filter(|(_, by)| !by.is_zero()) {
            self.move_along(own, by);
        }
        self.at
    }

    pub fn moved(self, by: Point) -> Scope {
        Scope { at: self.place(by), ..self }.existing()
    }

    pub fn resized(self, size: Point) -> Scope {
        Scope { size, ..self }.existing()
    }

    pub fn turned(mut self, axis: usize, quarters: i64) -> Scope {
        for _ in 0..quarters {
            self.frame = quarter(self.frame, axis);
        }
        self.existing()
    }

    /// Moved along an own axis, with that length along it.
    pub fn part(mut self, axis: usize, start: Fraction, length: Fraction) -> Scope {
        self.move_along(axis, start);
        self.size[axis] = length;
        self.existing()
    }

    /// Its box is in range.
    fn existing(self) -> Scope {
        self.place(self.size);
        self
    }

    pub fn bounds(&self) -> Bounds {
        let far = self.place(self.size);
        let mut bounds = Bounds { low: self.at, high: far };
        for direction in self.frame.into_iter().filter(|direction| direction.against) {
            let axis = direction.axis as usize;
            (bounds.low[axis], bounds.high[axis]) = (far[axis], self.at[axis]);
        }
        bounds
    }
}

/// A closed box along the axes of the world.
#[derive(Clone, Copy)]
pub struct Bounds {
    pub low: Point,
    pub high: Point,
}

impl Bounds {
    /// The relative interiors share a point.
    pub fn meets(&self, other: &Bounds) -> bool {
        (0..3).all(|axis| {
            let (low, high) = (self.low[axis], self.high[axis]);
            let (lower, upper) = (other.low[axis], other.high[axis]);
            low < upper && lower < high || low == lower && high == upper
        })
    }

    /// Some point is in both.
    pub fn touches(&self, other: &Bounds) -> bool {
        (0..3).all(|axis| self.low[axis] <= other.high[axis] && other.low[axis] <= self.high[axis])
    }

    pub fn holds(&self, other: &Bounds) -> bool {
        (0..3).all(|axis| self.low[axis] <= other.low[axis] && other.high[axis] <= self.high[axis])
    }

    /// Grows until it holds the other, too.
    pub fn join(&mut self, other: &Bounds) {
        for axis in 0..3 {
            self.low[axis] = self.low[axis].min(other.low[axis]);
            self.high[axis] = self.high[axis].max(other.high[axis]);
        }
    }
}
