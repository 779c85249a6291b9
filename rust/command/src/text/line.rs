//! A line that is read word by word, each complaint at its column.

use super::number::{decimal, NoSize, Unit, LENGTHS};
use super::places;
use crate::describe::counted;
use crate::fault::Refusal;

/// A word of a line, and its column, counted from 1.
#[derive(Clone, Copy)]
pub struct Word<'a> {
    pub text: &'a str,
    pub column: usize,
}

/// A line.
pub struct Line<'a> {
    pub number: usize,
    words: Vec<Word<'a>>,
    at: usize,
    /// The column after the last word.
    end: usize,
}

impl<'a> Line<'a> {
    /// The words of a line before its comment.
    pub fn of(number: usize, text: &'a str) -> Line<'a> {
        let code = text.split('#').next().unwrap_or_default();
        let mut words: Vec<Word> = Vec::new();
        let (mut column, mut end) = (1, 1);
        for piece in code.split_inclusive(char::is_whitespace) {
            let word = piece.trim_end();
            if !word.is_empty() {
                words.push(Word { text: word, column });
                end = column + word.chars().count();
            }
            column += piece.chars().count();
        }
        Line { number, words, at: 0, end }
    }

    /// The lines of a text that hold a word.
    pub fn all(text: &'a str) -> impl Iterator<Item = Line<'a>> {
        text.lines().enumerate().map(|(i, content)| Line::of(i + 1, content)).filter(Line::more)
    }

    /// Every word of the line, whatever has been passed.
    pub fn words(&self) -> &[Word<'a>] {
        &self.words
    }

    /// The column where the line's words begin.
    pub fn start(&self) -> usize {
        self.words.first().map_or(1, |word| word.column)
    }

    /// The column of the word that comes next.
    pub fn column(&self) -> usize {
        self.words.get(self.at).map_or(self.end, |word| word.column)
    }

    /// A complaint at a column.
    pub fn refuse(&self, column: usize, words: &str) -> Refusal {
        Refusal::text(self.number, column, words.to_string())
    }

    /// A complaint about a word.
    pub fn unexpected(&self, expected: &str, word: Word) -> Refusal {
        self.refuse(word.column, &format!("expected {expected}, found {}", quoted(word.text)))
    }

    /// The next word, if there is one.
    fn next(&mut self) -> Option<Word<'a>> {
        self.at += 1;
        self.words.get(self.at - 1).copied()
    }

    /// The next word, which must be there.
    pub fn word(&mut self, expected: &str) -> Result<Word<'a>, Refusal> {
        let word = self.next();
        word.ok_or_else(|| self.refuse(self.end, &format!("expected {expected}, found the end of the line")))
    }

    /// How many words have been passed.
    pub fn passed(&self) -> usize {
        self.at.min(self.words.len())
    }

    /// Whether words are left.
    pub fn more(&self) -> bool {
        self.at < self.words.len()
    }

    /// Passes the word that begins a rough place, if one stands here.
    pub fn place(&mut self) -> Option<Word<'a>> {
        self.at_place().then(|| self.words[self.at]).map(|word| {
            self.at += 1;
            word
        })
    }

    /// Whether a rough place begins here.
    pub fn at_place(&self) -> bool {
        let word = |i: usize| self.words.get(i).map(|word| word.text);
        word(self.at).map_or(false, |first| places::begins(first, word(self.at + 1)))
    }

    /// Passes the next word if it is one of some.
    pub fn pass<T>(&mut self, choose: impl Fn(&str) -> Option<T>) -> Option<T> {
        let chosen = self.words.get(self.at).and_then(|word| choose(word.text));
        self.at += usize::from(chosen.is_some());
        chosen
    }

    /// The end of the line, which must come now.
    pub fn finish(&self) -> Result<(), Refusal> {
        match self.words.get(self.at) {
            Some(&word) => Err(self.unexpected("the end of the line", word)),
            None => Ok(()),
        }
    }

    /// A decimal and its unit, which may be joined to it, follow it, or be left out at the end of the line.
    pub fn quantity(&mut self, what: &str, units: &[Unit]) -> Result<i32, Refusal> {
        let word = self.word(what)?;
        let split = word.text.find(|c: char| !(c.is_ascii_digit() || "+-.".contains(c))).unwrap_or(word.text.len());
        let (figures, suffix) = word.text.split_at(split);
        if figures.is_empty() || suffix.starts_with(',') {
            return Err(self.unexpected(what, word).hint(figures_meant(word.text)));
        }
        let joined = (!suffix.is_empty()).then(|| Word { text: suffix, column: word.column + split });
        let unit = match joined.or_else(|| if self.at_place() { None } else { self.next() }) {
            Some(word) => units.iter().find(|unit| unit.name == word.text).ok_or_else(|| {
                let names: Vec<_> = units.iter().map(|unit| unit.name).collect();
                let expected = format!("{} or the end of the line", names.join(", "));
                self.unexpected(&expected, word).hint(unit_meant(word.text))
            })?,
            None => &units[0],
        };
        decimal(figures, unit.decimals).map_err(|fault| match fault {
            NoSize::Form => self.unexpected(what, word),
            NoSize::TooFine => {
                let expected = format!("at most {} of {}", counted(unit.decimals, "decimal"), unit.name);
                self.unexpected(&expected, Word { text: figures, ..word })
            }
            NoSize::TooLong => self.unexpected("fewer digits", Word { text: figures, ..word }),
        })
    }

    /// A length.
    pub fn length(&mut self, what: &str) -> Result<i32, Refusal> {
        self.quantity(&format!("{what} in millimetres, like 600.0"), &LENGTHS)
    }
}

/// The most characters of a word that a complaint repeats.
const MOST_REPEATED: usize = 40;

/// A word as a complaint repeats it: its beginning, and no character that a terminal would obey.
pub fn quoted(word: &str) -> String {
    let shown: String = word.chars().filter(|c| !c.is_control()).take(MOST_REPEATED).collect();
    let rest = if word.chars().count() > MOST_REPEATED { ".." } else { "" };
    format!("\"{shown}{rest}\"")
}

/// How a number is written that has a comma for a point, or another sign for minus; empty where that is not it.
fn figures_meant(word: &str) -> String {
    let meant = word.replacen(',', ".", 1).replace(['\u{2212}', '\u{2013}'], "-");
    let number = meant.trim_end_matches(|c: char| c.is_alphabetic() || c == '°');
    let right = meant != word && decimal(number, 4).is_ok();
    if right {
        format!("write {meant}")
    } else {
        String::new()
    }
}

/// What to write for a unit that is not known.
fn unit_meant(unit: &str) -> &'static str {
    match unit {
        "in" | "inch" | "inches" | "\"" => "an inch is 25.4 mm",
        "ft" | "foot" | "feet" | "'" => "a foot is 304.8 mm",
        "rad" => "a radian is 57.30 deg",
        _ => "",
    }
}
