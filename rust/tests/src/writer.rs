//! The writer: facts to bytes, or the rule that refuses them.

use crate::facts::{Columns, Constraint, Kind, Opening, Rule, Sheet};
use crate::rules;

/// Writes facts by rules 1 (the opening), 3, 18, 19, 5, then each constraint by 6, 7, 8, 20 and 9.
pub fn write(facts: &Columns) -> Result<Vec<u8>, Rule> {
    let opening = [Opening::Pf01, Opening::Pf02].into_iter().find(|o| o.number() == facts.opening).ok_or(1)?;
    rules::element_count(facts.n)?;
    let kinds: Vec<Kind> = (0..facts.n).map(|i| facts.kind(i).ok_or(18)).collect::<Result<_, Rule>>()?;
    let radii = || kinds.iter().filter_map(|kind| kind.radius());
    rules::refuse(opening == Opening::Pf01 && radii().next().is_some(), 18)?;
    radii().try_for_each(rules::radius)?;
    rules::constraint_count(facts.e)?;
    let mut constraints = Vec::new();
    for i in 0..facts.e {
        let next = facts.constraint(i);
        rules::constraint(&kinds, &constraints, &next)?;
        constraints.push(next);
    }
    Ok(bytes(&Sheet { opening, kinds, constraints }))
}

/// The bytes of a sheet.
pub fn bytes(sheet: &Sheet) -> Vec<u8> {
    let mut out = sheet.opening.bytes().to_vec();
    out.push(sheet.n() as u8);
    let width = sheet.opening.kind_bits();
    let kinds = |four: &[Kind]| four.iter().rev().fold(0, |bits: u8, kind| bits << width | kind.number());
    out.extend(sheet.kinds.chunks(8 / width).map(kinds));
    out.extend(sheet.kinds.iter().filter_map(|kind| kind.radius()).flat_map(u32::to_le_bytes));
    out.push(sheet.e() as u8);
    for constraint in &sheet.constraints {
        out.extend(constraint_bytes(constraint));
    }
    out
}

/// The bytes of a constraint.
pub fn constraint_bytes(constraint: &Constraint) -> Vec<u8> {
    let mut out = vec![constraint.first, constraint.second, constraint.map];
    if constraint.is_sized() {
        out.extend(constraint.size.to_le_bytes());
    }
    out
}
