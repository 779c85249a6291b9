//! A sheet read from text.

use std::collections::HashMap;

use pattern::MOST_ELEMENTS;

use super::line::{Line, Word};
use super::number::ANGLES;
use super::places::{self, Rough};
use super::OTHER;
use crate::fault::{Refusal, Spot};
use crate::near::did_you_mean;
use crate::sheet::{Constraint, Dimension, Kind, Opening, Sheet};

/// The words that statements begin with: those that name elements, those of constraints, and the opening.
pub const NAMING: [&str; 3] = ["point", "line", "circle"];
pub const HOLDING: [&str; 4] = ["distance", "angle", "on", "tangent"];
pub const OPENING: &str = "opening";

/// The statements of a text form.
const STATEMENTS: &str = "point, line, circle, distance, angle, on, tangent or opening";

/// The most complaints that are gathered of one text.
const MOST_COMPLAINTS: usize = 100;

/// What a text says, with the place of each statement.
#[derive(Clone, Debug)]
pub struct Text {
    pub sheet: Sheet,
    pub names: Vec<String>,
    pub elements: Vec<Spot>,
    pub constraints: Vec<Spot>,
    /// Where the elements roughly are.
    pub places: Vec<Option<Rough>>,
}

/// What has been read so far.
struct Reader<'t> {
    text: Text,
    numbers: HashMap<String, usize>,
    opening: Option<Opening>,
    /// Where each name stands first in a line that names elements, or that means to: by the line.
    named: HashMap<&'t str, usize>,
}

impl<'t> Reader<'t> {
    /// A reader that knows some elements.
    fn knowing(elements: &[Kind], names: &[String]) -> Reader<'t> {
        let sheet = Sheet { opening: Opening::Pf01, elements: elements.to_vec(), constraints: Vec::new() };
        let spots = vec![Spot::Whole; elements.len()];
        let numbers = names.iter().cloned().enumerate().map(|(i, name)| (name, i)).collect();
        let places = vec![None; elements.len()];
        let text = Text { sheet, names: names.to_vec(), elements: spots, constraints: Vec::new(), places };
        Reader { text, numbers, opening: None, named: HashMap::new() }
    }

    /// Notes the words of a line that may name elements.
    fn note(&mut self, line: &Line<'t>) {
        if let [keyword, rest @ ..] = line.words() {
            if !HOLDING.contains(&keyword.text) && keyword.text != OPENING {
                rest.iter().filter(|word| is_name(word.text)).for_each(|word| {
                    self.named.entry(word.text).or_insert(line.number);
                });
            }
        }
    }

    /// A name that no element has yet.
    fn new_name<'a>(&self, line: &mut Line<'a>) -> Result<Word<'a>, Refusal> {
        let word = line.word("a name")?;
        if !is_name(word.text) {
            return Err(line.unexpected("a name: a letter, then letters, digits, or one of _ - . '", word));
        }
        match self.numbers.get(word.text).map(|&earlier| self.text.elements[earlier]) {
            Some(Spot::Text { line: earlier, .. }) => {
                Err(line.unexpected(&format!("a new name (line {earlier} has this one)"), word))
            }
            Some(_) => Err(line.unexpected("a new name", word)),
            None => Ok(word),
        }
    }

    /// Takes an element in, and the place behind it.
    fn element(&mut self, line: &mut Line, name: Word, kind: Kind) -> Result<(), Refusal> {
        self.numbers.insert(name.text.to_string(), self.text.names.len());
        self.text.names.push(name.text.to_string());
        self.text.sheet.elements.push(kind);
        self.text.elements.push(Spot::Text { line: line.number, column: name.column });
        let place = places::read(line, kind);
        self.text.places.push(place.as_ref().map_or(None, |place| *place));
        place.map(|_| ())
    }

    /// An element that has been named.
    fn end<'a>(&self, line: &mut Line<'a>) -> Result<(usize, Word<'a>), Refusal> {
        let word = line.word("the name of an element")?;
        match self.numbers.get(word.text) {
            Some(&number) => Ok((number, word)),
            None => {
                let hint = match self.named.get(word.text) {
                    Some(below) => format!("line {below} names it: elements are named before they are used"),
                    None => did_you_mean(word.text, self.text.names.iter().map(String::as_str).take(MOST_ELEMENTS)),
                };
                Err(line.unexpected("the name of an element above", word).hint(hint))
            }
        }
    }

    /// Whether a complaint only follows from one about an earlier line: it is about a name that stands in that line,
    /// and that therefore is not known.
    fn follows(&self, line: &Line, refusal: &Refusal) -> bool {
        let at = |word: &&Word| matches!(refusal.spot, Spot::Text { column, .. } if column == word.column);
        let holding = line.words().first().map_or(false, |word| HOLDING.contains(&word.text));
        let word = line.words().iter().find(at).filter(|word| !self.numbers.contains_key(word.text));
        let earlier = word.and_then(|word| self.named.get(word.text)).map_or(false, |&named| named < line.number);
        holding && earlier
    }

    /// Two ends, of kinds that the statement allows in one order or the other.
    fn ends(&self, line: &mut Line, what: &str, allowed: impl Fn(Kind, Kind) -> bool) -> Result<[usize; 2], Refusal> {
        let (first, word) = self.end(line)?;
        let (second, _) = self.end(line)?;
        let [a, b] = [first, second].map(|end| self.text.sheet.elements[end]);
        if !allowed(a, b) && !allowed(b, a) {
            let found = format!("expected {what}, found a {} and a {}", a.name(), b.name());
            return Err(line.refuse(word.column, &found));
        }
        Ok([first, second])
    }

    /// Takes a constraint in, its lower end first.
    fn constraint(&mut self, line: &Line, [a, b]: [usize; 2], dimension: Dimension) {
        self.text.sheet.constraints.push(Constraint { first: a.min(b), second: a.max(b), dimension });
        self.text.constraints.push(Spot::Text { line: line.number, column: line.start() });
    }

    /// One statement.
    fn statement(&mut self, line: &mut Line) -> Result<(), Refusal> {
        let keyword = line.word(STATEMENTS)?;
        match keyword.text {
            OPENING => {
                let word = line.word("PF01 or PF02")?;
                let opening = [Opening::Pf01, Opening::Pf02].into_iter().find(|opening| opening.name() == word.text);
                self.opening = Some(opening.ok_or_else(|| line.unexpected("PF01 or PF02", word))?);
            }
            "point" | "line" => {
                let kind = if keyword.text == "line" { Kind::Line } else { Kind::Point };
                let name = self.new_name(line)?;
                self.element(line, name, kind)?;
                while line.more() {
                    let name = self.new_name(line)?;
                    self.element(line, name, kind)?;
                }
            }
            "circle" => {
                let name = self.new_name(line)?;
                let column = line.column();
                let radius = line.length("a radius")?;
                let radius = u32::try_from(radius).map_err(|_| line.refuse(column, "expected a radius above 0"))?;
                self.element(line, name, Kind::Circle(radius))?;
            }
            "distance" => {
                let what = "two points, or a point and a line (two lines take an angle)";
                let ends = self.ends(line, what, |a, _| !a.is_line())?;
                let size = line.length("a distance")?;
                self.constraint(line, ends, Dimension::Size(size));
            }
            "angle" => {
                let ends = self.ends(line, "two lines", |a, b| a.is_line() && b.is_line())?;
                let size = line.quantity("an angle in degrees, like 90", &ANGLES)?;
                self.constraint(line, ends, Dimension::Size(if ends[0] > ends[1] { -size } else { size }));
            }
            "on" => {
                let what = "a point or a centre, and a line (a point on a circle is tangent)";
                let ends = self.ends(line, what, |a, b| !a.is_line() && b.is_line())?;
                self.constraint(line, ends, Dimension::On);
            }
            "tangent" => {
                let ends = self.ends(line, "a circle and another element", |a, _| matches!(a, Kind::Circle(_)))?;
                let column = line.column();
                let other = line.pass(|word| (word == OTHER).then_some(Dimension::OtherTangent));
                if other.is_some() && ends.iter().any(|&end| self.text.sheet.elements[end] == Kind::Point) {
                    let words = "expected the end of the line: a point and a circle have one contact";
                    return Err(line.refuse(column, words));
                }
                self.constraint(line, ends, other.unwrap_or(Dimension::Tangent));
            }
            unknown => return Err(line.unexpected(STATEMENTS, keyword).hint(statement_meant(unknown))),
        }
        line.finish()
    }
}

/// Whether a word may be a name: a letter, then letters, digits and some signs.
fn is_name(word: &str) -> bool {
    let mut characters = word.chars();
    let letter = characters.next().map_or(false, char::is_alphabetic);
    letter && characters.all(|c| c.is_alphanumeric() || "_-.'".contains(c))
}

/// What to write for a word that begins no statement.
fn statement_meant(word: &str) -> String {
    let known = match word.to_lowercase().as_str() {
        "parallel" => "parallel lines: hold both by an angle to a third line",
        "perpendicular" | "square" => "write: angle a b 90",
        "length" | "dist" | "dimension" => "did you mean distance?",
        "touch" | "touches" => "did you mean tangent?",
        "coincident" => "write: on, of a point and a line",
        "radius" => "a radius stands behind the name: circle lamp 45.0 mm",
        _ => return did_you_mean(word, NAMING.into_iter().chain(HOLDING).chain([OPENING])),
    };
    known.to_string()
}

/// Reads a text: what it says as far as it is understood, and every complaint, by line. A sheet with circles opens
/// PF02 where the text does not say.
pub fn parse(text: &str) -> (Text, Vec<Refusal>) {
    let mut reader = Reader::knowing(&[], &[]);
    Line::all(text).for_each(|line| reader.note(&line));
    let mut complaints = Vec::new();
    for mut line in Line::all(text) {
        if complaints.len() == MOST_COMPLAINTS {
            let words = format!("{MOST_COMPLAINTS} complaints so far: the rest is not read");
            complaints.push(line.refuse(line.start(), &words));
            break;
        }
        let complaint = reader.statement(&mut line).err();
        complaints.extend(complaint.filter(|refusal| !reader.follows(&line, refusal)));
    }
    let circles = reader.text.sheet.elements.iter().any(|kind| matches!(kind, Kind::Circle(_)));
    reader.text.sheet.opening = reader.opening.unwrap_or(if circles { Opening::Pf02 } else { Opening::Pf01 });
    (reader.text, complaints)
}

/// Reads one statement more of a text.
pub fn known(text: &Text, statement: &str) -> Result<(), Refusal> {
    let mut reader = Reader::knowing(&text.sheet.elements, &text.names);
    reader.statement(&mut Line::of(1, statement))
}

/// Reads a pull: the names of some elements, and a way `from X Y to X Y`. Element i as bit i, and how far.
pub fn pull(text: &str, elements: &[Kind], names: &[String]) -> Result<(u64, [f64; 2]), Refusal> {
    let reader = Reader::knowing(elements, names);
    let mut line = Line::of(1, text);
    let mut pulled = 0;
    while pulled == 0 || !line.at_place() && line.more() {
        pulled |= 1 << reader.end(&mut line)?.0;
    }
    let [a, b] = places::way(&mut line)?;
    line.finish()?;
    Ok((pulled, [b[0] - a[0], b[1] - a[1]]))
}

/// Reads one statement of a constraint between elements that are known.
pub fn statement(text: &str, elements: &[Kind], names: &[String]) -> Result<Constraint, Refusal> {
    let mut reader = Reader::knowing(elements, names);
    reader.statement(&mut Line::of(1, text))?;
    let expected = || Refusal::text(1, 1, "expected a constraint: distance, angle, on or tangent".to_string());
    reader.text.sheet.constraints.first().copied().ok_or_else(expected)
}
