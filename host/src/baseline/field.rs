//! Holes, ratios, boxes, and when two nodes are separated.

use super::{refuse_if, two_bytes, Result};

/// The most holes of a field.
pub const MOST: usize = 1_024;

/// A hole, in units of 1/64 mm.
#[derive(Clone, Copy, Debug, PartialEq, Eq)]
pub struct Hole {
    pub x: u16,
    pub y: u16,
}

impl Hole {
    /// The squared distance of two holes.
    pub fn squared_distance(self, other: Hole) -> u64 {
        let (dx, dy) = (self.x.abs_diff(other.x), self.y.abs_diff(other.y));
        square(dx.into()) + square(dy.into())
    }

    /// One number for the hole's place.
    fn place(self) -> u64 {
        u64::from(self.x) << 16 | u64::from(self.y)
    }
}

fn square(x: u64) -> u64 {
    x * x
}

/// The holes of a coordinate list.
pub fn read_holes(list: &[u8]) -> Vec<Hole> {
    list.chunks_exact(4)
        .map(|c| Hole {
            x: two_bytes(c, 0),
            y: two_bytes(c, 2),
        })
        .collect()
}

/// Refusal 6: the least hole that stands where a lower-numbered one does.
pub fn demand_distinct(holes: &[Hole]) -> Result<()> {
    let mut places: Vec<u64> = holes
        .iter()
        .zip(0..)
        .map(|(hole, number)| hole.place() << 16 | number)
        .collect();
    places.sort_unstable();
    let again = places
        .windows(2)
        .filter(|w| w[0] >> 16 == w[1] >> 16)
        .map(|w| w[1] & 0xFFFF)
        .min();
    refuse_if(again.is_some(), 6, again.unwrap_or(0))
}

/// The ratio s = a/b.
#[derive(Clone, Copy, Debug)]
pub struct Ratio {
    pub a: u64,
    pub b: u64,
    /// b² and (2b + a)².
    weights: [u64; 2],
}

impl Ratio {
    /// The ratio of two numbers, or refusal 4.
    pub fn new(a: u64, b: u64) -> Result<Ratio> {
        let in_range = (1..=64).contains(&a) && (1..=8).contains(&b);
        refuse_if(!in_range, 4, 0)?;
        let weights = [square(b), square(2 * b + a)];
        Ok(Ratio { a, b, weights })
    }

    /// Whether two nodes of these shapes are separated.
    pub fn separates(self, one: &Shape, other: &Shape) -> bool {
        let dx = u64::from(one.centre.0.abs_diff(other.centre.0));
        let dy = u64::from(one.centre.1.abs_diff(other.centre.1));
        let d = dx * dx + dy * dy;
        let g = one.diagonal.max(other.diagonal);
        d != 0 && self.weights[0] * d >= self.weights[1] * g
    }

    /// Whether the ratio is above a whole number.
    pub fn is_above(self, whole: u64) -> bool {
        self.a > whole * self.b
    }
}

/// A box: the smallest upright rectangle around some holes, both ends included.
#[derive(Clone, Copy, Debug, PartialEq, Eq)]
pub struct Rectangle {
    pub left: u16,
    pub right: u16,
    pub bottom: u16,
    pub top: u16,
}

impl Rectangle {
    /// The box of one hole.
    pub fn of_hole(hole: Hole) -> Rectangle {
        Rectangle {
            left: hole.x,
            right: hole.x,
            bottom: hole.y,
            top: hole.y,
        }
    }

    /// The box of the holes of two boxes together.
    pub fn join(self, other: Rectangle) -> Rectangle {
        Rectangle {
            left: self.left.min(other.left),
            right: self.right.max(other.right),
            bottom: self.bottom.min(other.bottom),
            top: self.top.max(other.top),
        }
    }

    pub fn width(self) -> u16 {
        self.right - self.left
    }

    pub fn height(self) -> u16 {
        self.top - self.bottom
    }

    /// What comparisons ask of the box.
    pub fn shape(self) -> Shape {
        let twice = |low: u16, high: u16| u32::from(low) + u32::from(high);
        Shape {
            centre: (twice(self.left, self.right), twice(self.bottom, self.top)),
            diagonal: square(self.width().into()) + square(self.height().into()),
            side: self.width().max(self.height()),
        }
    }
}

/// What comparisons ask of a box: C, twice its centre; G, its squared diagonal; and its longer side.
#[derive(Clone, Copy, Debug)]
pub struct Shape {
    pub centre: (u32, u32),
    pub diagonal: u64,
    pub side: u16,
}
