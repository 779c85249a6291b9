//! The fields of a sheet's bytes: the facts of an accepted sheet, and where in a refused one the fault lies.
//!
//! Nothing here judges. Whether bytes are a sheet is asked of the proved reader; these functions only take apart what
//! it accepts, and find the byte at which it begins to refuse.

use pattern::Rule;

use crate::engine;
use crate::fault::{Refusal, Spot};
use crate::sheet::{Constraint, Dimension, Kind, Opening, Part, Sheet};
use crate::{encoding, hint, text};

/// What a field says.
#[derive(Clone, Copy, PartialEq, Eq, Debug)]
enum Name {
    Opening,
    Elements,
    Kinds,
    Radius(usize),
    Constraints,
    First(usize),
    Second(usize),
    Map(usize),
    Size(usize),
    Tag(usize),
    Extra,
}

impl Name {
    /// The field in words.
    fn words(self) -> String {
        match self {
            Name::Opening => "the opening".to_string(),
            Name::Elements => "the count of elements".to_string(),
            Name::Kinds => "the kinds".to_string(),
            Name::Radius(i) => format!("the radius of element {i}"),
            Name::Constraints => "the count of constraints".to_string(),
            Name::First(k) => format!("the first end of constraint {k}"),
            Name::Second(k) => format!("the ends of constraint {k}"),
            Name::Map(k) => format!("the map of constraint {k}"),
            Name::Size(k) => format!("the size of constraint {k}"),
            Name::Tag(k) => format!("the tag of constraint {k}"),
            Name::Extra => "after the last constraint".to_string(),
        }
    }

    /// The constraint that the field belongs to.
    fn constraint(self) -> Option<usize> {
        match self {
            Name::First(k) | Name::Second(k) | Name::Map(k) | Name::Size(k) | Name::Tag(k) => Some(k),
            _ => None,
        }
    }
}

/// A walk over the fields: bytes beyond the end read as 0, so that it always comes to its end.
struct Walk<'a> {
    bytes: &'a [u8],
    at: usize,
    /// Each field with the place after its last byte.
    passed: Vec<(Name, usize)>,
}

impl Walk<'_> {
    /// Passes a field of so many bytes, lowest first: its value.
    fn take(&mut self, name: Name, count: usize) -> u32 {
        let byte = |i: usize| u32::from(self.bytes.get(self.at + i).copied().unwrap_or(0));
        let value = (0..count.min(4)).fold(0, |value, i| value | byte(i) << (8 * i));
        self.at += count;
        self.passed.push((name, self.at));
        value
    }
}

/// The facts that the bytes say, and where each field ends.
fn walk(bytes: &[u8]) -> (Sheet, Vec<(Name, usize)>) {
    let mut walk = Walk { bytes, at: 0, passed: Vec::new() };
    walk.take(Name::Opening, 4);
    let opening = if bytes.starts_with(b"PF02") { Opening::Pf02 } else { Opening::Pf01 };
    let n = walk.take(Name::Elements, 1) as usize;
    let bits = opening as usize;
    let from = walk.at;
    walk.take(Name::Kinds, (n * bits + 7) / 8);
    let kind = |i: usize| {
        let byte = bytes.get(from + i * bits / 8).copied().unwrap_or(0);
        byte >> (i * bits % 8) & ((1 << bits) - 1)
    };
    let mut elements = Vec::new();
    for i in 0..n {
        elements.push(match kind(i) {
            1 => Kind::Line,
            2 => Kind::Circle(walk.take(Name::Radius(i), 4)),
            _ => Kind::Point,
        });
    }
    let e = walk.take(Name::Constraints, 1) as usize;
    let mut constraints = Vec::new();
    for k in 0..e {
        let first = walk.take(Name::First(k), 1) as usize;
        let second = walk.take(Name::Second(k), 1) as usize;
        let map = walk.take(Name::Map(k), 1);
        let size = (map & 1 == 1).then(|| walk.take(Name::Size(k), 4) as i32);
        if map & 2 == 2 {
            walk.take(Name::Tag(k), 2);
        }
        let dimension = match (size, map & 4, map & 8) {
            (Some(size), _, _) => Dimension::Size(size),
            (None, 0, _) => Dimension::On,
            (None, _, 0) => Dimension::Tangent,
            _ => Dimension::OtherTangent,
        };
        constraints.push(Constraint { first, second, dimension });
    }
    walk.take(Name::Extra, bytes.len().saturating_sub(walk.at));
    (Sheet { opening, elements, constraints }, walk.passed)
}

/// The facts of a sheet, and its bytes without tags; or why the proved reader refuses it, and where.
pub fn read(bytes: &[u8]) -> Result<(Sheet, Vec<u8>), Refusal> {
    let plain = engine::rewrite(bytes).map_err(|rule| locate(bytes, rule))?;
    Ok((walk(&plain).0, plain))
}

/// The place at which a rule refuses the bytes. The shortest beginning that it refuses ends with the field at fault: each shorter one is only
/// cut off (rule 2, or 1 within the opening), so that halving finds it.
fn locate(bytes: &[u8], rule: Rule) -> Refusal {
    let (mut low, mut high) = (0, bytes.len());
    while low < high {
        let middle = low + (high - low) / 2;
        if engine::refusal(&bytes[..middle]) == Some(rule) {
            high = middle;
        } else {
            low = middle + 1;
        }
    }
    let (sheet, fields) = walk(bytes);
    let (byte, field) = match rule.0 {
        1 => (common(bytes, b"PF0"), Name::Opening),
        2 => (bytes.len(), field_at(&fields, bytes.len() + 1)),
        10 => (low - 1, Name::Extra),
        _ => (start_of(&fields, low), field_at(&fields, low)),
    };
    let hint = match (rule.0, field.constraint()) {
        (1, _) => encoding::named(bytes),
        (_, Some(k)) => hint::of(&sheet, &text::default_names(&sheet.elements), rule, Part::Constraint(k)),
        _ => String::new(),
    };
    Refusal { constraint: field.constraint(), ..Refusal::rule(Spot::Byte(byte), rule, field.words()).hint(hint) }
}

/// The first field that ends at a place or after it.
fn field_at(fields: &[(Name, usize)], place: usize) -> Name {
    fields.iter().find(|(_, end)| *end >= place).map_or(Name::Extra, |(name, _)| *name)
}

/// The first byte of the field that ends at a place; two ends are one field.
fn start_of(fields: &[(Name, usize)], place: usize) -> usize {
    let before = fields.iter().rev().find(|(name, end)| *end < place && !matches!(name, Name::First(_)));
    before.map_or(0, |(_, end)| *end)
}

/// How many bytes two texts begin with in common.
fn common(a: &[u8], b: &[u8]) -> usize {
    a.iter().zip(b).take_while(|(a, b)| a == b).count()
}
