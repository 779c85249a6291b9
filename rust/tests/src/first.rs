//! The reader of PF01 sheets alone, as document 01 has it, beside the reader of both openings: on bytes that open with PF01 nothing moved.

use crate::facts::{Constraint, Kind, Rule, Sheet};
use crate::reader::Fields;
use crate::rules::refuse;

/// Reads a PF01 sheet by rules 1 to 10 of document 01.
pub fn read(bytes: &[u8]) -> Result<Sheet, Rule> {
    let mut fields = Fields::new(bytes.strip_prefix(b"PF01").ok_or(1)?);
    let n = usize::from(fields.byte()?);
    refuse(!(2..=64).contains(&n), 3)?;
    let field = fields.take((n + 7) / 8)?;
    let line = |i: usize| field[i / 8] >> (i % 8) & 1 == 1;
    refuse((n..8 * field.len()).any(line), 4)?;
    let e = fields.byte()?;
    refuse(e > 200, 5)?;
    let mut constraints: Vec<Constraint> = Vec::new();
    for _ in 0..e {
        let (first, second) = (fields.byte()?, fields.byte()?);
        refuse(!(first < second && usize::from(second) < n), 6)?;
        refuse(constraints.iter().any(|c| (c.first, c.second) == (first, second)), 7)?;
        constraints.push(constraint(&mut fields, first, second, (line(first.into()), line(second.into())))?);
    }
    fields.end()?;
    let kinds = (0..n).map(|i| if line(i) { Kind::Line } else { Kind::Point }).collect();
    Ok(Sheet::first(kinds, constraints))
}

/// What follows the ends of a constraint, of which some are lines: rules 2, 8 and 9.
fn constraint(fields: &mut Fields, first: u8, second: u8, lines: (bool, bool)) -> Result<Constraint, Rule> {
    let map = fields.byte()?;
    refuse(map > 3, 8)?;
    let constraint = if map & 1 == 1 {
        let size = i32::from_le_bytes(fields.array()?);
        let range = match lines {
            (false, false) => 1..=40_000,
            (true, true) => -17_999..=17_999,
            _ => -40_000..=40_000,
        };
        refuse(size == 0 || !range.contains(&size), 9)?;
        Constraint::sized(first, second, size)
    } else {
        refuse(lines.0 == lines.1, 8)?;
        Constraint::bare(first, second)
    };
    if map & 2 == 2 {
        fields.take(2)?;
    }
    Ok(constraint)
}
