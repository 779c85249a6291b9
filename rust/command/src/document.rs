//! A sheet from a file: bytes or text, told apart by what the file holds.

use std::ffi::OsStr;

use pattern::Rule;

use crate::describe::counted;
use crate::fault::{Fault, Refusal, Spot};
use crate::near::did_you_mean;
use crate::sheet::{members, Kind, Opening, Part, Sheet};
use crate::{disk, encoding, engine, fields, hint, text};

/// The most bytes that are read of a file.
const MOST: u64 = 1 << 20;

/// A sheet that the proved reader accepts, and its names.
#[derive(Clone, Debug)]
pub struct Document {
    pub path: String,
    pub sheet: Sheet,
    pub names: Vec<String>,
    /// Where the elements roughly are, as the text says.
    pub places: Vec<Option<text::Rough>>,
    /// The sheet in bytes, without tags.
    pub bytes: Vec<u8>,
    /// The text that it was read from.
    pub source: Option<String>,
}

impl Document {
    /// Reads a file, or standard input by the name "-".
    pub fn load(path: &OsStr) -> Result<Document, Fault> {
        let shown = shown(path);
        let content = read(path)?;
        Document::of(&shown, &content)
    }

    /// The sheet that some content is.
    pub fn of(path: &str, content: &[u8]) -> Result<Document, Fault> {
        match encoding::text(content) {
            Some(source) => {
                let (parsed, complaints) = text::parse(source);
                let bytes = judge(&parsed, complaints)
                    .map_err(|refusals| Fault::Refused { path: path.to_string(), refusals })?;
                let text::Text { sheet, names, places, .. } = parsed;
                let (path, source) = (path.to_string(), Some(source.to_string()));
                Ok(Document { path, sheet, names, places, bytes, source })
            }
            None => {
                let (sheet, bytes) = fields::read(content).map_err(|refusal| Fault::refused(path, refusal))?;
                let names = text::default_names(&sheet.elements);
                let places = vec![None; names.len()];
                Ok(Document { path: path.to_string(), sheet, names, places, bytes, source: None })
            }
        }
    }

    /// The name of the file without its folder.
    pub fn title(&self) -> &str {
        self.path.rsplit('/').next().unwrap_or_default()
    }

    /// The names of the elements of a set.
    pub fn named(&self, set: u64) -> Vec<&str> {
        members(set).map(|i| self.names[i].as_str()).collect()
    }

    /// A constraint by number as a statement.
    pub fn statement(&self, number: usize) -> String {
        text::constraint(&self.sheet, &self.names, &self.sheet.constraints[number])
    }

    /// The element of a name or a number.
    pub fn element(&self, name: &str) -> Result<usize, Fault> {
        let named = self.names.iter().position(|known| known == name);
        let number = name.parse::<usize>().ok();
        named.or(number).ok_or_else(|| {
            let hint = did_you_mean(name, self.names.iter().map(String::as_str));
            let hint = if hint.is_empty() { hint } else { format!("; {hint}") };
            Fault::Usage(format!("{}: no element is named {name}{hint}", self.path))
        })
    }

    /// A refusal of a call on this sheet.
    pub fn refused(&self, rule: pattern::Rule) -> Fault {
        let hint = match rule.0 {
            11 => "pattern check says which dimension is one too many".to_string(),
            25 => format!("elements are 0 to {}", self.names.len() - 1),
            26 => {
                let steps = pattern::steps(&self.bytes).map_or(0, |steps| steps.len());
                match (self.sheet.constraints.len() + steps).checked_sub(1) {
                    Some(last) => format!("clusters are 0 to {last}"),
                    None => "it has none".to_string(),
                }
            }
            _ => String::new(),
        };
        Fault::refused(&self.path, Refusal::whole(rule).hint(hint))
    }
}

/// A path as it is printed.
pub fn shown(path: &OsStr) -> String {
    if path == "-" {
        "standard input".to_string()
    } else {
        path.to_string_lossy().into_owned()
    }
}

/// The bytes of a sheet, a plan or a price list, or of standard input by the name "-": no more than any of these has.
pub fn read(path: &OsStr) -> Result<Vec<u8>, Fault> {
    read_up_to(path, MOST)
}

/// All bytes of a file, or of standard input by the name "-".
pub fn read_all(path: &OsStr) -> Result<Vec<u8>, Fault> {
    read_up_to(path, u64::MAX)
}

/// The first bytes of a file, or of standard input.
fn read_up_to(path: &OsStr, most: u64) -> Result<Vec<u8>, Fault> {
    disk::read(path, most).map_err(|error| Fault::File { path: shown(path), error })
}

/// The bytes of what a text says, or every complaint about it: those of the text, and what the proved writer refuses.
/// What it refuses is left out, and the rest tried again.
fn judge(parsed: &text::Text, mut complaints: Vec<Refusal>) -> Result<Vec<u8>, Vec<Refusal>> {
    let understood = complaints.is_empty();
    let mut rest = parsed.clone();
    let mut numbers: Vec<usize> = (0..rest.constraints.len()).collect();
    let written = loop {
        let rule = match engine::write(&rest.sheet) {
            Ok(bytes) => break Some(bytes),
            Err(rule) => rule,
        };
        let part = rest.sheet.fault(rule);
        let (spot, words, constraint) = match part {
            Part::Element(i) => (rest.elements[i], format!("element {i}, {}", rest.names[i]), None),
            Part::Constraint(k) => {
                let statement = text::constraint(&rest.sheet, &rest.names, &rest.sheet.constraints[k]);
                (rest.constraints[k], format!("constraint {}, {statement}", numbers[k]), Some(numbers[k]))
            }
            Part::Whole => {
                let (n, e) = (rest.sheet.elements.len(), rest.sheet.constraints.len());
                (Spot::Whole, format!("{}, {}", counted(n, "element"), counted(e, "constraint")), None)
            }
        };
        let hint = match part {
            Part::Constraint(k) if rule.0 == 7 => earlier(&rest, k),
            _ => hint::of(&rest.sheet, &rest.names, rule, part),
        };
        let refusal = Refusal { constraint, ..Refusal::rule(spot, rule, words).hint(hint) };
        match part {
            Part::Element(_) if rule.0 == 18 => rest.sheet.opening = Opening::Pf02,
            Part::Element(i) => rest.sheet.elements[i] = Kind::Circle(1),
            Part::Constraint(k) => {
                rest.sheet.constraints.remove(k);
                rest.constraints.remove(k);
                numbers.remove(k);
            }
            // too few elements may only mean that a line that names some was not understood
            Part::Whole if understood => {
                complaints.push(refusal);
                break None;
            }
            Part::Whole => break None,
        }
        complaints.push(refusal);
    };
    complaints.sort_by_key(|refusal| refusal.spot.order());
    written.filter(|_| complaints.is_empty()).ok_or(complaints)
}

/// Which statement above holds the two ends of a constraint already.
fn earlier(parsed: &text::Text, k: usize) -> String {
    let statement = |j: usize| text::constraint(&parsed.sheet, &parsed.names, &parsed.sheet.constraints[j]);
    match hint::earlier(&parsed.sheet, k).map(|j| (j, parsed.constraints[j])) {
        Some((j, Spot::Text { line, .. })) => format!("line {line} has it: {}", statement(j)),
        _ => hint::of(&parsed.sheet, &parsed.names, Rule(7), Part::Constraint(k)),
    }
}
