//! The constraints as equations: how far places are from meeting them, and how they change.

use super::place::{along, between, direction, distance, dot, length, normal, wrapped, Place};
use crate::sheet::{Constraint, Sheet};

/// How far a length may be off and still be met: half of the last place that is written, in millimetres.
const HALF_A_TENTH: f64 = 0.0501;
/// How far an angle may be off, in radians: no more than its computing, since lines nearly parallel make much of
/// little.
const TURNED: f64 = 1e-7;

/// The size that a constraint asks for: millimetres, or radians.
pub fn wanted(sheet: &Sheet, constraint: &Constraint) -> f64 {
    let lines = [constraint.first, constraint.second].map(|end| sheet.elements[end].is_line());
    let size = sheet.size(constraint) as f64;
    if lines == [true, true] {
        (size / 100.0).to_radians()
    } else {
        size / 10.0
    }
}

/// A sheet's equations. Angles count as lengths at a distance of `scale`, so that all numbers are lengths.
pub struct System<'a> {
    sheet: &'a Sheet,
    scale: f64,
}

/// A row of derivatives: for each end, by its two numbers.
pub type Row = [(usize, [f64; 2]); 2];

impl System<'_> {
    /// The equations of a sheet.
    pub fn of(sheet: &Sheet) -> System<'_> {
        let lengths = sheet
            .constraints
            .iter()
            .filter(|c| !sheet.elements[c.first].is_line() || !sheet.elements[c.second].is_line());
        let scale = lengths.map(|c| wanted(sheet, c).abs()).fold(1.0, f64::max);
        System { sheet, scale }
    }

    /// The largest length of the sheet.
    pub fn scale(&self) -> f64 {
        self.scale
    }

    /// How far a constraint is from being met, and how that changes with the places of its ends.
    pub fn equation(&self, constraint: &Constraint, places: &[Place]) -> (f64, Row) {
        let &Constraint { first, second, .. } = constraint;
        let (a, b) = (places[first], places[second]);
        let size = wanted(self.sheet, constraint);
        match [first, second].map(|end| self.sheet.elements[end].is_line()) {
            [false, false] => {
                let (apart, far) = (between(a, b), length(between(a, b)));
                let unit = if far > 0.0 { [apart[0] / far, apart[1] / far] } else { [1.0, 0.0] };
                (far - size, [(first, [-unit[0], -unit[1]]), (second, unit)])
            }
            [false, true] => (distance(a, b) - size, [(first, normal(b[0])), (second, self.line_row(a, b))]),
            [true, false] => (distance(b, a) - size, [(first, self.line_row(b, a)), (second, normal(a[0]))]),
            [true, true] => (wrapped(b[0] - a[0] - size) * self.scale, [(first, [-1.0, 0.0]), (second, [1.0, 0.0])]),
        }
    }

    /// How a point's distance from a line changes with the line.
    pub fn line_row(&self, point: Place, line: Place) -> [f64; 2] {
        [-dot(direction(line[0]), point) / self.scale, -1.0]
    }

    /// How far the worst constraint is from being met, beside the largest length.
    pub fn error(&self, places: &[Place]) -> f64 {
        let errors = self.sheet.constraints.iter().map(|c| self.equation(c, places).0.abs() / self.scale);
        errors.fold(0.0, f64::max)
    }

    /// The constraints that the places do not meet within rounding.
    pub fn unmet(&self, places: &[Place]) -> Vec<usize> {
        let is_line = |i: usize| self.sheet.elements[i].is_line();
        let met = |c: &Constraint| {
            let angle = is_line(c.first) && is_line(c.second);
            let most = if angle { TURNED * self.scale } else { HALF_A_TENTH };
            self.equation(c, places).0.abs() <= most
        };
        let all = self.sheet.constraints.iter().enumerate();
        all.filter(|(_, c)| !met(c)).map(|(k, _)| k).collect()
    }

    /// Whether the places meet every size within rounding.
    pub fn met(&self, places: &[Place]) -> bool {
        self.unmet(places).is_empty()
    }

    /// The constraints.
    pub fn constraints(&self) -> &[Constraint] {
        &self.sheet.constraints
    }

    /// The sum of the squares of how far the constraints are from being met.
    pub fn squares(&self, places: &[Place]) -> f64 {
        self.sheet.constraints.iter().map(|c| self.equation(c, places).0.powi(2)).sum()
    }

    /// Places after a step.
    pub fn moved(&self, places: &[Place], step: &[f64]) -> Vec<Place> {
        let moved = |i: usize, place: &Place| {
            let by = [step[2 * i], step[2 * i + 1]];
            if self.sheet.elements[i].is_line() {
                [place[0] + by[0] / self.scale, place[1] + by[1]]
            } else {
                along(*place, 1.0, by)
            }
        };
        places.iter().enumerate().map(|(i, place)| moved(i, place)).collect()
    }
}
