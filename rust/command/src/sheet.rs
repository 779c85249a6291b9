//! The facts of a sheet, and their one way into bytes: the proved writer.

use pattern::Rule;
pub use pattern::{Dimension, Kind, Opening};

use crate::engine;

/// A constraint between two elements by number.
#[derive(Clone, Copy, PartialEq, Eq, Debug)]
pub struct Constraint {
    pub first: usize,
    pub second: usize,
    pub dimension: Dimension,
}

/// The facts of a sheet.
#[derive(Clone, PartialEq, Eq, Debug)]
pub struct Sheet {
    pub opening: Opening,
    pub elements: Vec<Kind>,
    pub constraints: Vec<Constraint>,
}

/// What of the facts a rule refuses.
#[derive(Clone, Copy, PartialEq, Eq, Debug)]
pub enum Part {
    Whole,
    Element(usize),
    Constraint(usize),
}

impl Sheet {
    /// The distance in tenths of a millimetre, or the angle in hundredths of a degree, that a constraint stands for.
    pub fn size(&self, constraint: &Constraint) -> i64 {
        let kinds = [constraint.first, constraint.second].map(|end| self.elements[end]);
        let radii = kinds.map(|kind| i64::from(kind.radius()));
        match constraint.dimension {
            Dimension::Size(size) => size.into(),
            Dimension::On => 0,
            Dimension::Tangent => radii[0] + radii[1],
            Dimension::OtherTangent if kinds.iter().any(|kind| kind.is_line()) => -(radii[0] + radii[1]),
            Dimension::OtherTangent => (radii[0] - radii[1]).abs(),
        }
    }

    /// The first part of the facts that the writer refuses, by the rule: the last piece of the shortest beginning that the rule refuses.
    pub fn fault(&self, rule: Rule) -> Part {
        let refused = |n: usize, e: usize| {
            let mut elements = self.elements[..n].to_vec();
            elements.resize(n.max(2), Kind::Point);
            let beginning = Sheet { opening: self.opening, elements, constraints: self.constraints[..e].to_vec() };
            engine::write(&beginning) == Err(rule)
        };
        let n = self.elements.len();
        match rule.0 {
            18 | 19 => first(n, |i| refused(i, 0)).map_or(Part::Whole, Part::Element),
            6..=9 | 20 => first(self.constraints.len(), |e| refused(n, e)).map_or(Part::Whole, Part::Constraint),
            _ => Part::Whole,
        }
    }
}

/// The last place of the shortest beginning that is refused: each longer one is refused too, so that halving finds it.
fn first(count: usize, refused: impl Fn(usize) -> bool) -> Option<usize> {
    let (mut low, mut high) = (0, count);
    while low < high {
        let middle = low + (high - low) / 2;
        if refused(middle + 1) {
            high = middle;
        } else {
            low = middle + 1;
        }
    }
    (low < count).then_some(low)
}

/// The elements of a set, ascending: element i as bit i.
pub fn members(set: u64) -> impl Iterator<Item = usize> {
    (0..64).filter(move |i| set >> i & 1 == 1)
}
