//! A sheet printed as text.

use std::fmt::Write;

use super::{degrees, millimetres, Rough, OTHER};
use crate::sheet::{Constraint, Dimension, Kind, Opening, Sheet};

/// Names for elements that have none: a letter for the kind, and the number.
pub fn default_names(elements: &[Kind]) -> Vec<String> {
    let letter = |kind: &Kind| match kind {
        Kind::Point => 'P',
        Kind::Line => 'L',
        Kind::Circle(_) => 'C',
    };
    elements.iter().enumerate().map(|(i, kind)| format!("{}{i}", letter(kind))).collect()
}

/// A constraint as a statement.
pub fn constraint(sheet: &Sheet, names: &[String], constraint: &Constraint) -> String {
    let &Constraint { first, second, dimension } = constraint;
    let lines = [first, second].map(|end| sheet.elements[end].is_line());
    let (a, b) = (&names[first], &names[second]);
    match dimension {
        Dimension::Size(size) if lines == [true, true] => format!("angle {a} {b} {}", degrees(size.into())),
        Dimension::Size(size) => format!("distance {a} {b} {}", millimetres(size.into())),
        Dimension::On if lines[0] => format!("on {b} {a}"),
        Dimension::On => format!("on {a} {b}"),
        Dimension::Tangent => format!("tangent {a} {b}"),
        Dimension::OtherTangent => format!("tangent {a} {b} {OTHER}"),
    }
}

/// The whole sheet, a statement a line: the opening where circles may stand, the elements, the constraints.
pub fn print(sheet: &Sheet, names: &[String]) -> String {
    print_placed(sheet, names, &vec![None; names.len()])
}

/// The whole sheet with rough places behind the elements that have one.
pub fn print_placed(sheet: &Sheet, names: &[String], places: &[Option<Rough>]) -> String {
    let mut text = String::new();
    if sheet.opening == Opening::Pf02 {
        text.push_str("opening PF02\n");
    }
    for ((kind, name), place) in sheet.elements.iter().zip(names).zip(places) {
        let _ = write!(text, "{} {name}", kind.name());
        if let Kind::Circle(radius) = kind {
            let _ = write!(text, " {}", millimetres((*radius).into()));
        }
        if let Some(place) = place {
            let _ = write!(text, " {}", place.words());
        }
        text.push('\n');
    }
    for more in &sheet.constraints {
        let _ = writeln!(text, "{}", constraint(sheet, names, more));
    }
    text
}
