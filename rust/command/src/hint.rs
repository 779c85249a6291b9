//! Ways out: what would be accepted in place of what a rule refuses.

use pattern::Rule;

use crate::sheet::{Constraint, Dimension, Kind, Part, Sheet};
use crate::text::{self, degrees, millimetres};

/// A half turn in hundredths of a degree.
const HALF_TURN: i32 = 18_000;

/// The way out where a rule refuses a part of the facts; empty where the rule says all.
pub fn of(sheet: &Sheet, names: &[String], rule: Rule, part: Part) -> String {
    let n = sheet.elements.len();
    match (rule.0, part) {
        (3, _) if n < 2 => "name two elements or more".to_string(),
        (3, _) => format!("{n} are too many for one sheet: split the pattern"),
        (5, _) => format!("{n} elements take {} at most: more make them over", 2 * n.max(2) - 3),
        (18, _) => "circles need PF02: leave the line \"opening PF01\" out".to_string(),
        (19, _) => format!("a radius is {} to {}", millimetres(1), millimetres(40_000)),
        (_, Part::Constraint(k)) => constraint(sheet, names, rule, k),
        _ => String::new(),
    }
}

/// The way out where a rule refuses a constraint.
fn constraint(sheet: &Sheet, names: &[String], rule: Rule, k: usize) -> String {
    let c = &sheet.constraints[k];
    let ends = [c.first, c.second].map(|end| sheet.elements.get(end).copied());
    match (rule.0, ends) {
        (6, [Some(_), Some(_)]) if c.first == c.second => {
            format!("both ends are {}: a dimension holds two different elements", names[c.first])
        }
        (6, _) => format!("ends are elements 0 to {}, the lower one first", sheet.elements.len().saturating_sub(1)),
        (7, [Some(_), Some(_)]) => match earlier(sheet, k) {
            Some(j) => format!("constraint {j} has it: {}", text::constraint(sheet, names, &sheet.constraints[j])),
            None => String::new(),
        },
        (8, [Some(a), Some(b)]) => format!("{} take {}", pair(a, b), allowed(a, b)),
        (9, [Some(a), Some(b)]) => size(c, names, a, b),
        (20, _) => "leave out \"other\", or give the circles different radii".to_string(),
        _ => String::new(),
    }
}

/// The constraint before another that has the same two ends.
pub fn earlier(sheet: &Sheet, k: usize) -> Option<usize> {
    let ends = |constraint: &Constraint| (constraint.first, constraint.second);
    sheet.constraints[..k].iter().position(|other| ends(other) == ends(&sheet.constraints[k]))
}

/// The range of a size, and what to write for a size that lies just outside of it.
fn size(c: &Constraint, names: &[String], a: Kind, b: Kind) -> String {
    let size = if let Dimension::Size(size) = c.dimension { size } else { 0 };
    let longest = millimetres(40_000);
    match (a.is_line(), b.is_line()) {
        (false, false) => {
            let range = format!("a distance between points is {} to {longest}", millimetres(1));
            match size {
                0 => range + ", and two points in one place are one",
                i32::MIN..=-1 => range + ", without a sign",
                _ => range,
            }
        }
        (true, true) => {
            let range = format!("an angle is {} to {}, and not 0", degrees(-17_999), degrees(17_999));
            match size.rem_euclid(2 * HALF_TURN) {
                0 | HALF_TURN => range + "; parallel lines: hold both by an angle to a third line",
                turn if turn < HALF_TURN => format!("{range}; {} is the same", degrees(turn.into())),
                turn => format!("{range}; {} is the same", degrees((turn - 2 * HALF_TURN).into())),
            }
        }
        (first, _) => {
            let range = format!("a distance from a line is -{longest} to {longest}, and not 0");
            let (point, line) = if first { (c.second, c.first) } else { (c.first, c.second) };
            if size == 0 {
                format!("{range}; write: on {} {}", names[point], names[line])
            } else {
                range
            }
        }
    }
}

/// Two kinds in words.
fn pair(a: Kind, b: Kind) -> String {
    if a.name() == b.name() {
        format!("two {}s", a.name())
    } else {
        format!("{} and {}", a.name(), b.name())
    }
}

/// What two kinds may have, in the words of the text form.
fn allowed(a: Kind, b: Kind) -> &'static str {
    let circles = [a, b].iter().filter(|kind| kind.radius() > 0).count();
    match (a.is_line() && b.is_line(), a.is_line() || b.is_line(), circles) {
        (true, ..) => "an angle",
        (_, true, 0) => "a distance, or on",
        (_, true, _) => "a distance, on, tangent, or tangent other",
        (_, _, 0) => "a distance",
        (_, _, 1) => "a distance, or tangent",
        _ => "a distance, tangent, or tangent other",
    }
}
