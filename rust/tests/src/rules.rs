//! Rules 3 to 9 (document 01, "Refused, in checking order" and "Size by kind of pair") and 18 to 20 (document 02, 2026-01).

use crate::facts::{Constraint, Kind, Rule, FEWEST_ELEMENTS, MOST_CONSTRAINTS, MOST_ELEMENTS, OTHER, SIZED, TANGENT};

/// The bits of a map that stand for nothing.
const UNKNOWN: u8 = 0b1111_0000;

/// Rule 3: the element count is outside 2 to 64.
pub fn element_count(n: usize) -> Result<(), Rule> {
    refuse(!(FEWEST_ELEMENTS..=MOST_ELEMENTS).contains(&n), 3)
}

/// Rule 5: the constraint count is above 200.
pub fn constraint_count(e: usize) -> Result<(), Rule> {
    refuse(e > MOST_CONSTRAINTS, 5)
}

/// Rule 19: a radius is outside 1 to 40,000.
pub fn radius(radius: u32) -> Result<(), Rule> {
    refuse(!(1..=40_000).contains(&radius), 19)
}

/// Rules 6 and 7: the ends are not first below second below n; the pair stands in an earlier constraint.
pub fn ends(first: u8, second: u8, n: usize, earlier: &[Constraint]) -> Result<(), Rule> {
    refuse(!(first < second && usize::from(second) < n), 6)?;
    refuse(earlier.iter().any(|c| c.first == first && c.second == second), 7)
}

/// Rule 8, then 20. Bit 2 without a circle or beside bit 0, bit 3 without bit 2 or for point and circle, bits 4 to 7, and neither size nor contact
/// unless one end is a line and the other is not; then two circles of equal radii under bit 3. A PF01 sheet has no circle, so that its bits 2 and 3
/// are refused.
pub fn map(a: Kind, b: Kind, map: u8) -> Result<(), Rule> {
    let stands = |bit: u8| map & bit != 0;
    let circle = a.radius().is_some() || b.radius().is_some();
    let point = a == Kind::Point || b == Kind::Point;
    refuse(stands(UNKNOWN), 8)?;
    refuse(stands(TANGENT) && (!circle || stands(SIZED)), 8)?;
    refuse(stands(OTHER) && (!stands(TANGENT) || point), 8)?;
    refuse(!stands(SIZED) && !stands(TANGENT) && a.is_line() == b.is_line(), 8)?;
    refuse(stands(OTHER) && a == b, 20)
}

/// Rule 9: a given size is outside its range, 0 included; a circle counts as its centre point.
pub fn given_size(a: Kind, b: Kind, size: i32) -> Result<(), Rule> {
    let range = match (a.is_line(), b.is_line()) {
        (false, false) => 1..=40_000,
        (true, true) => -17_999..=17_999,
        _ => -40_000..=40_000,
    };
    refuse(size == 0 || !range.contains(&size), 9)
}

/// One more constraint by 6, 7, 8, 20 and 9, as the writer and a held sketch try them.
pub fn constraint(kinds: &[Kind], earlier: &[Constraint], more: &Constraint) -> Result<(), Rule> {
    ends(more.first, more.second, kinds.len(), earlier)?;
    let (a, b) = (kinds[usize::from(more.first)], kinds[usize::from(more.second)]);
    map(a, b, more.map)?;
    if more.is_sized() {
        given_size(a, b, more.size)
    } else {
        Ok(())
    }
}

/// The rule's refusal, where it is met.
pub fn refuse(met: bool, rule: Rule) -> Result<(), Rule> {
    if met {
        Err(rule)
    } else {
        Ok(())
    }
}
