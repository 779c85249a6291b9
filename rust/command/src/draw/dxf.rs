//! A drawing as DXF, release 12: points, lines and circles, each kind on a layer of its own, in millimetres.

use std::fmt::Write;

use crate::document::Document;
use crate::sheet::Kind;
use crate::text::Rough;

/// The layers with their colours by number.
const LAYERS: [(&str, u8); 3] = [("POINTS", 1), ("LINES", 7), ("CIRCLES", 5)];

/// A group: its code and its value, a line each.
fn group(out: &mut String, code: u16, value: impl std::fmt::Display) {
    let _ = write!(out, "{code:3}\n{value}\n");
}

/// A place: x, y and z under three codes ten apart.
fn place(out: &mut String, code: u16, [x, y]: [f64; 2]) {
    for (i, value) in [x, y, 0.0].iter().enumerate() {
        // no zero has a sign
        group(out, code + 10 * i as u16, format!("{:.6}", (value * 1e6).round() / 1e6 + 0.0));
    }
}

/// The drawing of placed elements.
pub fn drawing(document: &Document, places: &[Rough]) -> String {
    let mut out = String::new();
    let ends = places.iter().flat_map(|place| match *place {
        Rough::At(at) => vec![at],
        Rough::Along(ends) => ends.to_vec(),
    });
    let ends: Vec<[f64; 2]> = ends.collect();
    let corner =
        |start: f64, pick: fn(f64, f64) -> f64| [0, 1].map(|axis| ends.iter().map(|p| p[axis]).fold(start, pick));
    section(&mut out, "HEADER", |out| {
        group(out, 9, "$ACADVER");
        group(out, 1, "AC1009");
        for (name, at) in
            [("$EXTMIN", corner(f64::INFINITY, f64::min)), ("$EXTMAX", corner(f64::NEG_INFINITY, f64::max))]
        {
            group(out, 9, name);
            place(out, 10, at);
        }
    });
    section(&mut out, "TABLES", |out| {
        group(out, 0, "TABLE");
        group(out, 2, "LAYER");
        group(out, 70, LAYERS.len());
        for (name, colour) in LAYERS {
            group(out, 0, "LAYER");
            group(out, 2, name);
            group(out, 70, 0);
            group(out, 62, colour);
            group(out, 6, "CONTINUOUS");
        }
        group(out, 0, "ENDTAB");
    });
    section(&mut out, "ENTITIES", |out| {
        for (kind, rough) in document.sheet.elements.iter().zip(places) {
            let (what, layer) = match kind {
                Kind::Point => ("POINT", 0),
                Kind::Line => ("LINE", 1),
                Kind::Circle(_) => ("CIRCLE", 2),
            };
            group(out, 0, what);
            group(out, 8, LAYERS[layer].0);
            match *rough {
                Rough::At(at) => place(out, 10, at),
                Rough::Along([from, to]) => {
                    place(out, 10, from);
                    place(out, 11, to);
                }
            }
            if let Kind::Circle(radius) = kind {
                group(out, 40, format!("{:.1}", f64::from(*radius) / 10.0));
            }
        }
    });
    group(&mut out, 0, "EOF");
    out
}

/// A section of a drawing.
fn section(out: &mut String, name: &str, content: impl Fn(&mut String)) {
    group(out, 0, "SECTION");
    group(out, 2, name);
    content(out);
    group(out, 0, "ENDSEC");
}
