//! The reader: bytes to a sheet, or the rule of the first field that fails.

use crate::facts::{Constraint, Kind, Opening, Rule, Sheet, SIZED, TAGGED};
use crate::rules;

/// The bytes of a tag, which is read and dropped.
const TAG: usize = 2;

/// The bytes that are still to be read.
pub struct Fields<'a> {
    left: &'a [u8],
}

impl<'a> Fields<'a> {
    /// All of the bytes.
    pub fn new(bytes: &'a [u8]) -> Fields<'a> {
        Fields { left: bytes }
    }

    /// A field of `count` bytes; rule 2 where the sheet ends inside it.
    pub fn take(&mut self, count: usize) -> Result<&'a [u8], Rule> {
        let field = self.left.get(..count).ok_or(2)?;
        self.left = &self.left[count..];
        Ok(field)
    }

    /// A field of N bytes as an array.
    pub fn array<const N: usize>(&mut self) -> Result<[u8; N], Rule> {
        Ok(self.take(N)?.try_into().expect("a field of N bytes"))
    }

    /// A field of one byte.
    pub fn byte(&mut self) -> Result<u8, Rule> {
        Ok(self.array::<1>()?[0])
    }

    /// Rule 10: bytes follow.
    pub fn end(&self) -> Result<(), Rule> {
        rules::refuse(!self.left.is_empty(), 10)
    }
}

/// Reads a sheet by rules 1 to 10 and 18 to 20.
pub fn read(bytes: &[u8]) -> Result<Sheet, Rule> {
    let opening = [Opening::Pf01, Opening::Pf02].into_iter().find(|o| bytes.starts_with(o.bytes())).ok_or(1)?;
    let mut fields = Fields::new(&bytes[opening.bytes().len()..]);
    let n = usize::from(fields.byte()?);
    rules::element_count(n)?;
    let kinds = kinds(&mut fields, opening, n)?;
    let e = usize::from(fields.byte()?);
    rules::constraint_count(e)?;
    let mut constraints = Vec::new();
    for _ in 0..e {
        let next = constraint(&mut fields, &kinds, &constraints)?;
        constraints.push(next);
    }
    fields.end()?;
    Ok(Sheet { opening, kinds, constraints })
}

/// The n kinds, one field: rule 4 where an unused bit is 1, then 18 where a kind is 3. Then the radius of each circle, a field of its own, by 19.
fn kinds(fields: &mut Fields, opening: Opening, n: usize) -> Result<Vec<Kind>, Rule> {
    let width = opening.kind_bits();
    let field = fields.take((width * n + 7) / 8)?;
    let bit = |i: usize| field[i / 8] >> (i % 8) & 1;
    rules::refuse((width * n..8 * field.len()).any(|i| bit(i) == 1), 4)?;
    let number = |i: usize| (0..width).map(|k| bit(width * i + k) << k).sum::<u8>();
    rules::refuse((0..n).any(|i| number(i) == 3), 18)?;
    let mut kinds = Vec::new();
    for i in 0..n {
        kinds.push(match number(i) {
            0 => Kind::Point,
            1 => Kind::Line,
            _ => {
                let radius = u32::from_le_bytes(fields.array()?);
                rules::radius(radius)?;
                Kind::Circle(radius)
            }
        });
    }
    Ok(kinds)
}

/// Reads the next constraint by rules 2, 6 to 9 and 20.
pub fn constraint(fields: &mut Fields, kinds: &[Kind], earlier: &[Constraint]) -> Result<Constraint, Rule> {
    let first = fields.byte()?;
    let second = fields.byte()?;
    rules::ends(first, second, kinds.len(), earlier)?;
    let (a, b) = (kinds[usize::from(first)], kinds[usize::from(second)]);
    let map = fields.byte()?;
    rules::map(a, b, map)?;
    let mut size = 0;
    if map & SIZED != 0 {
        size = i32::from_le_bytes(fields.array()?);
        rules::given_size(a, b, size)?;
    }
    if map & TAGGED != 0 {
        fields.take(TAG)?;
    }
    Ok(Constraint { first, second, map, size }.kept())
}
