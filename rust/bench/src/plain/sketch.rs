//! A held sketch in a record of bytes: asking what one constraint more would do, and placing it.

use super::over;
use super::plan::judge;
use super::sheet::{read, Constraint, Rule, Sheet};

/// The verdict with one constraint more, or minus the rule.
pub fn ask(record: &[u8], more: &Constraint) -> i32 {
    next(record, more, None, &mut Sheet::blank()).unwrap_or_else(|rule| -i32::from(rule))
}

/// The same, and the record has the constraint, if it holds as many as told.
pub fn place(record: &mut [u8], more: &Constraint, told: usize) -> i32 {
    let mut sheet = Sheet::blank();
    let placed = next(record, more, Some(told), &mut sheet).and_then(|verdict| {
        let (count, bytes) = record.split_at_mut(2);
        let written = sheet.write_last(usize::from(u16::from_le_bytes([count[0], count[1]])), bytes)?;
        count.copy_from_slice(&(written as u16).to_le_bytes());
        Ok(verdict)
    });
    placed.unwrap_or_else(|rule| -i32::from(rule))
}

/// Reads a record's sheet and adds a constraint: the verdict.
fn next(record: &[u8], more: &Constraint, told: Option<usize>, sheet: &mut Sheet) -> Result<i32, Rule> {
    let count = record.get(..2).ok_or(27)?;
    let bytes = record[2..].get(..usize::from(u16::from_le_bytes([count[0], count[1]]))).ok_or(27)?;
    read(bytes, sheet).map_err(|_| 27)?;
    if sheet.e + 3 > 2 * sheet.n {
        return Err(27);
    }
    let other = told.map_or(false, |told| told != sheet.e);
    let added = if other { Err(24) } else { sheet.add(more) };
    let refused = match added.map(|()| judge(sheet)) {
        Ok(0) => {
            sheet.e -= 1;
            11
        }
        Ok(verdict) => return Ok(verdict),
        Err(rule) => rule,
    };
    // the record itself comes before the constraint
    Err(if over::find(sheet).is_some() { 27 } else { refused })
}
