//! The facts of a sheet: its opening, elements and constraints.

/// What a sheet opens with.
#[derive(Clone, Copy, PartialEq, Eq, Debug)]
pub enum Opening {
    /// Points and lines.
    Pf01 = 1,
    /// Points, lines and circles.
    Pf02 = 2,
}

impl Opening {
    /// The four characters.
    pub fn name(self) -> &'static str {
        match self {
            Opening::Pf01 => "PF01",
            Opening::Pf02 => "PF02",
        }
    }
}

/// The kind of an element.
#[derive(Clone, Copy, PartialEq, Eq, Debug)]
pub enum Kind {
    Point,
    Line,
    /// A circle of this radius, in tenths of a millimetre: 1 to 40,000.
    Circle(u32),
}

impl Kind {
    /// The kind in a word.
    pub fn name(self) -> &'static str {
        match self {
            Kind::Point => "point",
            Kind::Line => "line",
            Kind::Circle(_) => "circle",
        }
    }

    /// Whether it is a line: a circle counts as its centre point.
    pub fn is_line(self) -> bool {
        self == Kind::Line
    }

    /// The radius: 0 of what is no circle.
    pub fn radius(self) -> u32 {
        if let Kind::Circle(radius) = self {
            radius
        } else {
            0
        }
    }

    /// The kind's number.
    pub(crate) fn number(self) -> u8 {
        match self {
            Kind::Point => 0,
            Kind::Line => 1,
            Kind::Circle(_) => 2,
        }
    }
}

/// What a constraint says.
#[derive(Clone, Copy, PartialEq, Eq, Debug)]
pub enum Dimension {
    /// A distance in tenths of a millimetre, an angle in hundredths of a degree; a circle's is that of its centre.
    Size(i32),
    /// A point or a centre lies on a line.
    On,
    /// A circle touches a line or another circle, or a point lies on it.
    Tangent,
    /// The other contact: on the other side of the line, or one circle within the other.
    OtherTangent,
}

/// A constraint between two elements, the first below the second.
#[derive(Clone, Copy, PartialEq, Eq, Debug)]
pub struct Constraint {
    pub first: u8,
    pub second: u8,
    pub dimension: Dimension,
}

impl Constraint {
    /// A constraint.
    pub fn new(first: u8, second: u8, dimension: Dimension) -> Constraint {
        Constraint { first, second, dimension }
    }

    /// A constraint with a size.
    pub fn sized(first: u8, second: u8, size: i32) -> Constraint {
        Constraint::new(first, second, Dimension::Size(size))
    }

    /// The same constraint with its lower end first. Between two lines an angle then turns the other way: its sign changes.
    ///
    /// ```
    /// use pattern::{Constraint, Kind};
    ///
    /// let kinds = [Kind::Line, Kind::Line, Kind::Point];
    /// assert_eq!(Constraint::sized(1, 0, 9_000).ordered(&kinds), Constraint::sized(0, 1, -9_000));
    /// assert_eq!(Constraint::sized(2, 0, -300).ordered(&kinds), Constraint::sized(0, 2, -300));
    /// ```
    pub fn ordered(self, kinds: &[Kind]) -> Constraint {
        if self.first <= self.second {
            return self;
        }
        let line = |end: u8| kinds.get(usize::from(end)) == Some(&Kind::Line);
        let dimension = match self.dimension {
            Dimension::Size(size) if line(self.first) && line(self.second) => Dimension::Size(size.saturating_neg()),
            other => other,
        };
        Constraint::new(self.second, self.first, dimension)
    }

    /// The bit map: bit 0 where the size is given, bit 2 of a contact, bit 3 of the other.
    pub(crate) fn map(&self) -> u8 {
        match self.dimension {
            Dimension::Size(_) => 1,
            Dimension::On => 0,
            Dimension::Tangent => 4,
            Dimension::OtherTangent => 12,
        }
    }

    /// The size, 0 where none is given.
    pub(crate) fn size(&self) -> i32 {
        if let Dimension::Size(size) = self.dimension {
            size
        } else {
            0
        }
    }
}

/// The facts of a sheet.
#[derive(Clone, Copy, PartialEq, Eq, Debug)]
pub struct Facts<'a> {
    pub opening: Opening,
    pub kinds: &'a [Kind],
    pub constraints: &'a [Constraint],
}

impl<'a> Facts<'a> {
    /// The facts of a PF01 sheet, which has no circle.
    pub fn pf01(kinds: &'a [Kind], constraints: &'a [Constraint]) -> Facts<'a> {
        Facts { opening: Opening::Pf01, kinds, constraints }
    }

    /// The facts of a PF02 sheet.
    pub fn pf02(kinds: &'a [Kind], constraints: &'a [Constraint]) -> Facts<'a> {
        Facts { opening: Opening::Pf02, kinds, constraints }
    }
}
