//! Whether a dimension too many agrees with the others of its part: they are laid out without it, near rough places or
//! in every placement, and it is measured there.

use pattern::Step;

use super::construct::{placements, start, Part};
use super::layout::{any_layout, How};
use super::linear;
use super::place::{between, distance, length, wrapped, Place};
use super::system::System;
use crate::advice::{without, Extra};
use crate::document::Document;
use crate::engine;
use crate::json::Json;
use crate::sheet::{members, Constraint, Dimension, Sheet};
use crate::text::{degrees, millimetres};

/// The most merges of a walk through the placements of a part.
const MOST_MERGES: usize = 2_000;
/// How much of its last place a size may be off by rounding. A little more than half, for what is computed.
const ROUNDING: f64 = 0.51;

/// What the others of a part make of a dimension too many. Sizes are in tenths of a millimetre or hundredths of a
/// degree.
#[derive(Clone, PartialEq, Eq, Debug)]
pub struct Agreement {
    /// The size that the others make it: the nearest of all placements that were looked at.
    pub others: i64,
    /// Whether it is that but for the rounding of sizes.
    pub agrees: bool,
    /// How many placements were looked at, and whether these are all that count: the one near rough places is.
    pub placements: usize,
    pub all: bool,
}

/// The places of a document without some of its constraints, near its rough places; none where it has none, or these
/// lead nowhere.
fn near(document: &Document, out: &[usize]) -> Option<Vec<Place>> {
    if document.places.iter().all(Option::is_none) {
        return None;
    }
    let sheet = without(&document.sheet, out);
    let found = any_layout(&Document { bytes: engine::write(&sheet).ok()?, sheet, ..document.clone() });
    (found.how == How::Near && found.unmet.is_empty()).then_some(found.places)
}

impl Agreement {
    /// What each extra of a document says beside the others of its part, where all extras are left out; none where a
    /// part cannot be laid out.
    pub fn of(document: &Document, extras: &[Extra]) -> Vec<Option<Agreement>> {
        let out: Vec<usize> = extras.iter().map(|extra| extra.constraint).collect();
        let near = near(document, &out);
        extras.iter().map(|extra| Agreement::of_one(&document.sheet, extra, near.as_deref())).collect()
    }

    /// What an extra says, at some places of the whole sheet or else in every placement of its part.
    fn of_one(sheet: &Sheet, extra: &Extra, near: Option<&[Place]>) -> Option<Agreement> {
        let part = within(sheet, extra);
        let rest = Sheet { constraints: part.constraints[1..].to_vec(), ..part.clone() };
        let (found, all) = match near {
            Some(places) => (vec![members(extra.part).map(|i| places[i]).collect()], true),
            None => every(&rest)?,
        };
        let wanted = part.size(&part.constraints[0]) as f64;
        let apart = |size: f64| match both_lines(&part) {
            true => wrapped(((size - wanted) / 100.0).to_radians()).to_degrees().abs() * 100.0,
            false => (size - wanted).abs(),
        };
        let measured = found.iter().map(|places| (measured(&part, places), places));
        let (size, places) = measured.min_by(|a, b| apart(a.0).total_cmp(&apart(b.0)))?;
        let agrees = apart(size) <= rounding(&part, places);
        Some(Agreement { others: size.round() as i64, agrees, placements: found.len(), all })
    }

    /// The agreement in words, of a constraint of a sheet.
    pub fn words(&self, sheet: &Sheet, constraint: usize) -> String {
        let c = &sheet.constraints[constraint];
        let lines = [c.first, c.second].iter().all(|&end| sheet.elements[end].is_line());
        let unit = if lines { degrees } else { millimetres };
        let (others, own) = (unit(self.others), unit(sheet.size(c)));
        match (self.agrees, self.all) {
            (true, _) if others == own => "it agrees with the others".to_string(),
            (true, _) => format!("it agrees with the others but for rounding: they make it {others}"),
            (false, true) => format!("it contradicts the others: they make it {others}, not {own}"),
            (false, false) => {
                format!("none of {} placements agrees: the nearest makes it {others}, not {own}", self.placements)
            }
        }
    }

    /// The agreement for a program.
    pub fn json(&self) -> Json {
        Json::Object(vec![
            ("agrees", self.agrees.into()),
            ("others_make", Json::Number(self.others)),
            ("placements", self.placements.into()),
            ("all", self.all.into()),
        ])
    }
}

/// The part of an extra as a sheet: the extra first, then the others.
fn within(sheet: &Sheet, extra: &Extra) -> Sheet {
    let elements: Vec<usize> = members(extra.part).collect();
    let place = |end: usize| elements.iter().position(|&known| known == end).unwrap_or(0);
    let moved = |k: &usize| {
        let c = &sheet.constraints[*k];
        Constraint { first: place(c.first), second: place(c.second), dimension: c.dimension }
    };
    Sheet {
        opening: sheet.opening,
        elements: elements.iter().map(|&i| sheet.elements[i]).collect(),
        constraints: [extra.constraint].iter().chain(&extra.fixed_by).map(moved).collect(),
    }
}

/// Whether the first constraint is an angle.
fn both_lines(part: &Sheet) -> bool {
    let c = &part.constraints[0];
    part.elements[c.first].is_line() && part.elements[c.second].is_line()
}

/// The size of the first constraint as it is at some places, in the unit of sizes.
fn measured(part: &Sheet, places: &[Place]) -> f64 {
    let c = &part.constraints[0];
    let (a, b) = (places[c.first], places[c.second]);
    match [c.first, c.second].map(|end| part.elements[end].is_line()) {
        [false, false] => length(between(a, b)) * 10.0,
        [false, true] => distance(a, b) * 10.0,
        [true, false] => distance(b, a) * 10.0,
        [true, true] => wrapped(b[0] - a[0]).to_degrees() * 100.0,
    }
}

/// The placements of a sheet that is built by its plan, as far as they are walked through, and whether these are all.
fn every(sheet: &Sheet) -> Option<(Vec<Vec<Place>>, bool)> {
    let steps = pattern::steps(&engine::write(sheet).ok()?).ok()?;
    if 1 + 2 * steps.len() != sheet.constraints.len() {
        return None;
    }
    let mut walk = Walk { sheet, steps: &steps, merges: 0, found: Vec::new() };
    walk.on(&mut sheet.constraints.iter().map(|constraint| Some(start(sheet, constraint))).collect());
    Some((walk.found, walk.merges < MOST_MERGES))
}

/// A walk through the placements of a plan.
struct Walk<'a> {
    sheet: &'a Sheet,
    steps: &'a [Step],
    merges: usize,
    found: Vec<Vec<Place>>,
}

impl Walk<'_> {
    /// Goes on from the parts that stand.
    fn on(&mut self, parts: &mut Vec<Option<Part>>) {
        let done = parts.len() - self.sheet.constraints.len();
        if done == self.steps.len() {
            let last = parts.last().and_then(Option::as_ref);
            self.found.extend(last.map(|part| part.iter().flatten().copied().collect()));
            return;
        }
        let Step { parts: three, joint, .. } = self.steps[done];
        let placements = match three.map(|part| parts[part].as_ref()) {
            [Some(a), Some(b), Some(c)] => placements(self.sheet, [a, b, c], joint),
            _ => Vec::new(),
        };
        for placement in placements {
            self.merges += 1;
            if self.merges < MOST_MERGES {
                parts.push(Some(placement));
                self.on(parts);
                parts.pop();
            }
        }
    }
}

/// How far the first constraint may be from what the others make it, by the rounding of all their sizes: to first
/// order, in the unit of sizes.
fn rounding(part: &Sheet, places: &[Place]) -> f64 {
    let system = System::of(part);
    let row = |constraint: &Constraint| {
        let mut row = vec![0.0; 2 * places.len()];
        for (end, by) in system.equation(constraint, places).1 {
            row[2 * end] = by[0];
            row[2 * end + 1] = by[1];
        }
        row
    };
    let rows: Vec<Vec<f64>> = part.constraints.iter().map(row).collect();
    let product = |a: &[f64], b: &[f64]| a.iter().zip(b).map(|(x, y)| x * y).sum::<f64>();
    let square = |i: usize| rows[1..].iter().map(|other| product(&rows[i], other)).collect::<Vec<f64>>();
    let right = rows[1..].iter().map(|other| product(&rows[0], other)).collect();
    let times = linear::solve((1..rows.len()).map(square).collect(), right).unwrap_or_default();
    // a length is rounded to a tenth of a millimetre, an angle to a hundredth of a degree, which the equations count as
    // a length far out
    let unit =
        |constraint: &Constraint| match [constraint.first, constraint.second].map(|end| part.elements[end].is_line()) {
            [true, true] => 0.01f64.to_radians() * system.scale(),
            _ => 0.1,
        };
    let rounded = |constraint: &Constraint| match constraint.dimension {
        Dimension::Size(_) => ROUNDING * unit(constraint),
        _ => 0.0,
    };
    let own = &part.constraints[0];
    let others: f64 = part.constraints[1..].iter().zip(&times).map(|(c, times)| times.abs() * rounded(c)).sum();
    (rounded(own) + others) / unit(own)
}
