//! A held sketch by a plain list of constraints (document 01, "A held sketch"; document 02, 2026-05).

use crate::facts::{Constraint, Rule, Sheet};
use crate::matching::by_matching;
use crate::rules::{constraint, refuse};
use crate::verdict::{judge, verdict};
use crate::{reader, writer};

/// The list with one constraint more, by 6, 7, 8, 20, 9 and 11; bit 1 of its map has no influence.
pub fn next(held: &Sheet, more: &Constraint) -> Result<Sheet, Rule> {
    let more = more.kept();
    constraint(&held.kinds, &held.constraints, &more)?;
    let mut next = held.clone();
    next.constraints.push(more);
    refuse(by_matching(&next).is_some(), 11)?;
    Ok(next)
}

/// The sheet that a record stands for: 27 where it may not be held.
pub fn in_record(record: &[u8]) -> Result<Sheet, Rule> {
    let mut fields = reader::Fields::new(record);
    let count = u16::from_le_bytes(fields.array().map_err(|_| 27)?);
    let bytes = fields.take(usize::from(count)).map_err(|_| 27)?;
    let sheet = reader::read(bytes).map_err(|_| 27)?;
    refuse(by_matching(&sheet).is_some(), 27)?;
    Ok(sheet)
}

/// The record of a sheet.
pub fn record(sheet: &Sheet) -> Vec<u8> {
    let bytes = writer::bytes(sheet);
    let count = u16::try_from(bytes.len()).expect("a sheet is short");
    count.to_le_bytes().into_iter().chain(bytes).collect()
}

/// What asking answers of a record: the verdict.
pub fn ask(record: &[u8], more: &Constraint) -> Result<u8, Rule> {
    let next = next(&in_record(record)?, more)?;
    Ok(verdict(&next, &judge(&next)) as u8)
}

/// What placing gives: the list with the constraint.
pub fn place(record: &[u8], more: &Constraint, told: usize) -> Result<Sheet, Rule> {
    let held = in_record(record)?;
    refuse(held.e() != told, 24)?;
    next(&held, more)
}
