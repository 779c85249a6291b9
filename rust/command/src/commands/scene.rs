//! `pattern scene`: what a picture shows, as data for a program that draws it.

use std::ffi::OsStr;

use super::draw::options;
use super::WINDOW;
use crate::cli::{Answer, Call};
use crate::document::{self, Document};
use crate::draw::{self, Window};
use crate::encoding;
use crate::fault::{Fault, Status};
use crate::finding::Finding;
use crate::prices::Prices;
use crate::text;

/// Runs the command.
pub fn run(call: &Call) -> Result<Answer, Fault> {
    let mut options = options(call)?;
    options.window = call.value(&WINDOW).map(window).transpose()?;
    let path = &call.operands[0];
    let content = document::read(path)?;
    let value = match Document::of(&document::shown(path), &content) {
        Ok(document) => {
            let prices = Prices::default().of(&document)?;
            let finding = Finding::of(&document, &prices).map_err(|rule| document.refused(rule))?;
            draw::data(&document, &finding, &draw::layout(&document), options)
        }
        Err(fault) => {
            let (document, finding, layout) = few(path, &content).ok_or(fault)?;
            draw::data(&document, &finding, &layout, options)
        }
    };
    Ok(Answer::deliver_json(call, value, Status::Well))
}

/// A text that is understood and has fewer elements than a sheet: where they are, and no more.
pub fn few(path: &OsStr, content: &[u8]) -> Option<(Document, Finding, draw::Layout)> {
    let source = encoding::text(content).or_else(|| content.is_empty().then_some(""))?;
    let (parsed, complaints) = text::parse(source);
    let text::Text { sheet, names, places, .. } = parsed;
    if !complaints.is_empty() || names.len() > 1 || !sheet.constraints.is_empty() {
        return None;
    }
    let layout = draw::alone(&sheet, &places);
    let (path, source) = (document::shown(path), Some(source.to_string()));
    Some((Document { path, sheet, names, places, bytes: Vec::new(), source }, Finding::none(), layout))
}

/// A window: the coordinates of its upper left corner and pixels a millimetre, commas between.
pub fn window(text: &OsStr) -> Result<Window, Fault> {
    let numbers: Vec<f64> = text.to_string_lossy().split(',').filter_map(|word| word.parse().ok()).collect();
    match numbers[..] {
        [x, y, scale] if x.abs() <= 1e9 && y.abs() <= 1e9 && (1e-6..=1e6).contains(&scale) => {
            Ok(Window { corner: [x, y], scale })
        }
        _ => {
            let words = "--window is X,Y,SCALE: its upper left corner in millimetres, and pixels a millimetre";
            Err(Fault::Usage(words.to_string()))
        }
    }
}
