//! Records with a constraint to be asked or placed: the last one of a sheet, with the others held.

use pattern_tests::facts::{Constraint, Sheet};
use pattern_tests::{reader, sketch, writer};

use crate::cases::Case;

/// How many bytes follow the record and the sheet: the constraint, how many are held, and where the sheet stands.
const TAIL: usize = 10;

/// The case's sheets, each as the record of all but its last constraint, then the sheet, then the tail. Where it is not to be `taken`, the last
/// constraint makes the sketch over.
pub fn with_last(case: &Case, taken: bool) -> Option<Case> {
    let pool: Option<Vec<Vec<u8>>> = case.pool.iter().map(|bytes| parts(bytes, taken)).collect();
    Some(Case { name: case.name.clone(), n: case.n, e: case.e, pool: pool? })
}

/// The parts of one sheet.
fn parts(bytes: &[u8], taken: bool) -> Option<Vec<u8>> {
    let mut sheet = reader::read(bytes).ok()?;
    if !taken && sheet.e() + 3 <= 2 * sheet.n() {
        sheet.constraints.push(more(&sheet)?);
    }
    let last = sheet.constraints.pop()?;
    let mut out = sketch::record(&sheet);
    sketch::in_record(&out).ok()?;
    let over = sketch::next(&sheet, &last).is_err();
    if over == taken {
        return None;
    }
    let held = sheet.e() as u8;
    sheet.constraints.push(last);
    let (at, whole) = (out.len() as u16, writer::bytes(&sheet));
    out.extend_from_slice(&whole);
    out.extend_from_slice(&[last.first, last.second, last.map]);
    out.extend_from_slice(&last.size.to_le_bytes());
    out.push(held);
    out.extend_from_slice(&at.to_le_bytes());
    Some(out)
}

/// A pair that makes the sheet over.
fn more(sheet: &Sheet) -> Option<Constraint> {
    let n = sheet.n() as u8;
    let pairs = (0..n).flat_map(|a| (a + 1..n).map(move |b| (a, b)));
    let all = pairs.map(|(first, second)| Constraint::sized(first, second, 300));
    all.into_iter().find(|more| sketch::next(sheet, more) == Err(11))
}

/// Two bytes from a place on.
fn number(bytes: &[u8], at: usize) -> usize {
    usize::from(u16::from_le_bytes([bytes[at], bytes[at + 1]]))
}

/// The record at the front.
pub fn record(bytes: &[u8]) -> &[u8] {
    &bytes[..number(bytes, bytes.len() - 2)]
}

/// The sheet without its last constraint.
pub fn without(bytes: &[u8]) -> &[u8] {
    &record(bytes)[2..]
}

/// The sheet with its last constraint.
pub fn sheet(bytes: &[u8]) -> &[u8] {
    &bytes[number(bytes, bytes.len() - 2)..bytes.len() - TAIL]
}

/// The last constraint.
pub fn last(bytes: &[u8]) -> Constraint {
    let last = &bytes[bytes.len() - TAIL..];
    let size = i32::from_le_bytes([last[3], last[4], last[5], last[6]]);
    Constraint { first: last[0], second: last[1], map: last[2], size }
}

/// How many constraints the record holds.
pub fn count(bytes: &[u8]) -> usize {
    usize::from(bytes[bytes.len() - TAIL + 7])
}
