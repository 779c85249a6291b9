//! The facts of a sheet (document 01, "The sheet in bytes"; document 02, 2026-01, on circles).

use crate::set::{one, Set};

/// The fewest elements of a sheet.
pub const FEWEST_ELEMENTS: usize = 2;
/// The most elements of a sheet.
pub const MOST_ELEMENTS: usize = 64;
/// The most constraints of a sheet.
pub const MOST_CONSTRAINTS: usize = 200;

/// Bit 0 of a constraint's map: the size is given.
pub const SIZED: u8 = 1;
/// Bit 1: a tag follows, which is read and dropped.
pub const TAGGED: u8 = 2;
/// Bit 2: the two touch.
pub const TANGENT: u8 = 4;
/// Bit 3, beside bit 2: the other contact.
pub const OTHER: u8 = 8;

/// The number of the rule that refuses (document 01, "Refused, in checking order").
pub type Rule = u8;

/// The bytes that a sheet opens with.
#[derive(Clone, Copy, PartialEq, Eq, Debug)]
pub enum Opening {
    Pf01,
    Pf02,
}

impl Opening {
    /// The four bytes.
    pub fn bytes(self) -> &'static [u8] {
        match self {
            Opening::Pf01 => b"PF01",
            Opening::Pf02 => b"PF02",
        }
    }

    /// The number that the C interface has for it.
    pub fn number(self) -> usize {
        match self {
            Opening::Pf01 => 1,
            Opening::Pf02 => 2,
        }
    }

    /// How many bits a kind has.
    pub fn kind_bits(self) -> usize {
        self.number()
    }
}

/// The kind of an element; a circle has its radius.
#[derive(Clone, Copy, PartialEq, Eq, Debug)]
pub enum Kind {
    Point,
    Line,
    Circle(u32),
}

impl Kind {
    /// Whether it is a line: a circle counts as its centre point.
    pub fn is_line(self) -> bool {
        self == Kind::Line
    }

    /// The radius of a circle.
    pub fn radius(self) -> Option<u32> {
        match self {
            Kind::Circle(radius) => Some(radius),
            _ => None,
        }
    }

    /// The number that a sheet has for it.
    pub fn number(self) -> u8 {
        match self {
            Kind::Point => 0,
            Kind::Line => 1,
            Kind::Circle(_) => 2,
        }
    }
}

/// A constraint between two elements. Of a sheet's the map has bits 0, 2 and 3 alone, and the size is 0 where bit 0 does not stand; one that is
/// offered may have any.
#[derive(Clone, Copy, PartialEq, Eq, Debug)]
pub struct Constraint {
    pub first: u8,
    pub second: u8,
    pub map: u8,
    pub size: i32,
}

impl Constraint {
    /// A constraint with a size.
    pub fn sized(first: u8, second: u8, size: i32) -> Constraint {
        Constraint { first, second, map: SIZED, size }
    }

    /// A constraint with neither size nor contact: a point or a centre lies on a line.
    pub fn bare(first: u8, second: u8) -> Constraint {
        Constraint { first, second, map: 0, size: 0 }
    }

    /// A contact.
    pub fn tangent(first: u8, second: u8) -> Constraint {
        Constraint { first, second, map: TANGENT, size: 0 }
    }

    /// The other contact.
    pub fn other_tangent(first: u8, second: u8) -> Constraint {
        Constraint { first, second, map: TANGENT | OTHER, size: 0 }
    }

    /// The same as a sheet has it: without bit 1, and with a size of 0 where none is given.
    pub fn kept(self) -> Constraint {
        Constraint { map: self.map & !TAGGED, size: if self.is_sized() { self.size } else { 0 }, ..self }
    }

    /// Whether a size is given.
    pub fn is_sized(&self) -> bool {
        self.map & SIZED != 0
    }

    /// Whether it is a contact, either one.
    pub fn is_tangent(&self) -> bool {
        self.map & TANGENT != 0
    }

    /// Whether it is the other contact.
    pub fn is_other(&self) -> bool {
        self.map & OTHER != 0
    }

    /// The two ends as a set.
    pub fn ends(&self) -> Set {
        one(self.first.into()) | one(self.second.into())
    }
}

/// An accepted sheet.
#[derive(Clone, PartialEq, Eq, Debug)]
pub struct Sheet {
    pub opening: Opening,
    pub kinds: Vec<Kind>,
    pub constraints: Vec<Constraint>,
}

impl Sheet {
    /// A PF01 sheet.
    pub fn first(kinds: Vec<Kind>, constraints: Vec<Constraint>) -> Sheet {
        Sheet { opening: Opening::Pf01, kinds, constraints }
    }

    /// The element count.
    pub fn n(&self) -> usize {
        self.kinds.len()
    }

    /// The constraint count.
    pub fn e(&self) -> usize {
        self.constraints.len()
    }

    /// The set of the lines.
    pub fn lines(&self) -> Set {
        (0..self.n()).filter(|&i| self.kinds[i].is_line()).map(one).sum()
    }

    /// The kinds of a constraint's two ends.
    pub fn pair(&self, constraint: &Constraint) -> (Kind, Kind) {
        (self.kinds[usize::from(constraint.first)], self.kinds[usize::from(constraint.second)])
    }

    /// The distance or angle that a constraint stands for: its size, what its contact means, or 0.
    pub fn distance(&self, constraint: &Constraint) -> i64 {
        if !constraint.is_tangent() {
            return constraint.size.into();
        }
        let (a, b) = self.pair(constraint);
        let (p, q) = (i64::from(a.radius().unwrap_or(0)), i64::from(b.radius().unwrap_or(0)));
        match (a.is_line() || b.is_line(), constraint.is_other()) {
            (_, false) => p + q,
            (true, true) => -(p + q),
            (false, true) => (p - q).abs(),
        }
    }

    /// The sketch of the centres: circles are points, and contacts are sizes. It opens with PF01, though a size may be too large for a sheet.
    pub fn centres(&self) -> Sheet {
        let kind = |&kind: &Kind| if kind.is_line() { Kind::Line } else { Kind::Point };
        let constraint = |c: &Constraint| match c.is_tangent() {
            true => Constraint::sized(c.first, c.second, self.distance(c) as i32),
            false => *c,
        };
        Sheet::first(self.kinds.iter().map(kind).collect(), self.constraints.iter().map(constraint).collect())
    }
}

/// Facts as the C interface takes them, sound or not: the number of the opening, the two counts, a list for the kinds, one for the radii, and one for
/// each field of the constraints.
#[derive(Clone, Debug)]
pub struct Columns {
    pub opening: usize,
    pub n: usize,
    pub e: usize,
    pub kinds: Vec<u8>,
    pub radii: Vec<u32>,
    pub firsts: Vec<u8>,
    pub seconds: Vec<u8>,
    pub maps: Vec<u8>,
    pub sizes: Vec<i32>,
}

impl Columns {
    /// The facts of a sheet; a missing size, and the radius of what is no circle, has a 0 in its list.
    pub fn of(sheet: &Sheet) -> Columns {
        let constraints = &sheet.constraints;
        Columns {
            opening: sheet.opening.number(),
            n: sheet.n(),
            e: sheet.e(),
            kinds: sheet.kinds.iter().map(|kind| kind.number()).collect(),
            radii: sheet.kinds.iter().map(|kind| kind.radius().unwrap_or(0)).collect(),
            firsts: constraints.iter().map(|c| c.first).collect(),
            seconds: constraints.iter().map(|c| c.second).collect(),
            maps: constraints.iter().map(|c| c.map).collect(),
            sizes: constraints.iter().map(|c| c.size).collect(),
        }
    }

    /// The kind of element i: nothing where the list has no kind for it.
    pub fn kind(&self, i: usize) -> Option<Kind> {
        match self.kinds.get(i)? {
            0 => Some(Kind::Point),
            1 => Some(Kind::Line),
            2 => Some(Kind::Circle(self.radii.get(i).copied().unwrap_or(0))),
            _ => None,
        }
    }

    /// Constraint i; the blank one, 0 0, where the place lies beyond a list that its map needs.
    pub fn constraint(&self, i: usize) -> Constraint {
        self.listed(i).unwrap_or_else(|| Constraint::bare(0, 0))
    }

    fn listed(&self, i: usize) -> Option<Constraint> {
        let map = *self.maps.get(i)?;
        let size = if map & SIZED != 0 { *self.sizes.get(i)? } else { 0 };
        Some(Constraint { first: *self.firsts.get(i)?, second: *self.seconds.get(i)?, map, size }.kept())
    }
}
