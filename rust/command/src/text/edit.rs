//! A text that is changed in place: what a change does not name stays as it is written, comments and spaces too.

use super::line::{Line, Word};
use super::parse::{known, parse, HOLDING, NAMING, OPENING};
use super::places::{self, Rough};
use super::{quoted, Text};
use crate::fault::{Refusal, Spot};
use crate::near::did_you_mean;

/// The words that changes begin with, beside those of statements.
const REMOVE: &str = "remove";
const RENAME: &str = "rename";
const MOVE: &str = "move";
const RESIZE: &str = "resize";
const RADIUS: &str = "radius";
/// What a change may be.
const CHANGES: &str =
    "remove, rename, move, resize, radius, or a statement: point, line, circle, distance, angle, on, \
    tangent or opening";

/// A text, its lines with their ends, and what it says.
struct Source {
    lines: Vec<String>,
    text: Text,
}

impl Source {
    /// A text that is understood.
    fn of(source: &str) -> Source {
        Source { lines: source.split_inclusive('\n').map(str::to_string).collect(), text: parse(source).0 }
    }

    /// The text again.
    fn joined(self) -> String {
        self.lines.concat()
    }

    /// How its lines end.
    fn ending(&self) -> &'static str {
        if self.lines.first().map_or(false, |line| line.ends_with("\r\n")) {
            "\r\n"
        } else {
            "\n"
        }
    }

    /// The line of an element or constraint, counted from 0, and its column.
    fn spot(spot: Spot) -> (usize, usize) {
        match spot {
            Spot::Text { line, column } => (line - 1, column),
            _ => (0, 1),
        }
    }

    /// The words of a line.
    fn words(&self, line: usize) -> Vec<Word<'_>> {
        Line::of(line + 1, &self.lines[line]).words().to_vec()
    }

    /// Puts some words in the place of those from one to before another.
    fn replace(&mut self, line: usize, from: usize, to: usize, new: &str) {
        let words = self.words(line);
        let end = |word: &Word| word.column - 1 + word.text.chars().count();
        // what is put in stands behind the word before; what goes takes the space before it along
        let start = if from > 0 { end(&words[from - 1]) } else { words.first().map_or(0, |word| word.column - 1) };
        let stop = if to > from { end(&words[to - 1]) } else { start };
        let gap = if new.is_empty() || from == 0 { "" } else { " " };
        let old: Vec<char> = self.lines[line].chars().collect();
        let [before, after] = [&old[..start], &old[stop..]].map(|part| part.iter().collect::<String>());
        self.lines[line] = format!("{before}{gap}{new}{after}");
    }

    /// Puts a statement in as a line of its own, before a line.
    fn insert(&mut self, line: usize, statement: &str) {
        let ending = self.ending();
        if let Some(last) = self.lines.last_mut().filter(|last| line > 0 && !last.ends_with('\n')) {
            last.push_str(ending);
        }
        self.lines.insert(line, format!("{statement}{ending}"));
    }

    /// The element of a name.
    fn element(&self, line: &mut Line) -> Result<usize, Refusal> {
        let word = line.word("the name of an element")?;
        let names = &self.text.names;
        names.iter().position(|name| name == word.text).ok_or_else(|| {
            let hint = did_you_mean(word.text, names.iter().map(String::as_str));
            line.unexpected("the name of an element", word).hint(hint)
        })
    }

    /// The constraint between two elements.
    fn between(&self, line: &Line, a: usize, b: usize) -> Result<usize, Refusal> {
        let pair = (a.min(b), a.max(b));
        let found = self.text.sheet.constraints.iter().position(|c| (c.first, c.second) == pair);
        let names = &self.text.names;
        found.ok_or_else(|| line.refuse(line.start(), &format!("nothing holds {} and {}", names[a], names[b])))
    }

    /// Where an element stands: its line, its name's place among the words, the place behind its radius, and behind its
    /// rough place.
    fn words_of(&self, element: usize) -> (usize, [usize; 3]) {
        let (line, column) = Source::spot(self.text.elements[element]);
        let words = self.words(line);
        let name = words.iter().position(|word| word.column == column).unwrap_or(1);
        let begins = |i: usize| places::begins(words[i].text, words.get(i + 1).map(|word| word.text));
        let size = match self.text.sheet.elements[element].radius() {
            0 => name + 1,
            _ => (name + 1..words.len()).find(|&i| begins(i)).unwrap_or(words.len()),
        };
        let place = match words.get(size).map(|word| word.text) {
            Some(_) if !begins(size) => size,
            Some(places::AT) => size + 3,
            Some(_) => size + 6,
            None => size,
        };
        (line, [name, size, place.min(words.len())])
    }

    /// Takes a constraint away, with its line.
    fn remove_constraint(&mut self, constraint: usize) {
        let (line, _) = Source::spot(self.text.constraints[constraint]);
        self.lines.remove(line);
    }

    /// Takes an element away, with every constraint that holds it.
    fn remove_element(&mut self, element: usize) {
        let (line, [name, _, end]) = self.words_of(element);
        let alone = name == 1 && end == self.words(line).len();
        let holding = self.text.sheet.constraints.iter().zip(&self.text.constraints);
        let mut gone: Vec<usize> = holding
            .filter(|(c, _)| c.first == element || c.second == element)
            .map(|(_, spot)| Source::spot(*spot).0)
            .collect();
        if alone {
            gone.push(line);
        } else {
            self.replace(line, name, end, "");
        }
        gone.sort_unstable();
        gone.into_iter().rev().for_each(|line| drop(self.lines.remove(line)));
    }

    /// Gives an element another name, wherever it stands.
    fn rename(&mut self, element: usize, name: &str) {
        let (line, [at, _, _]) = self.words_of(element);
        self.replace(line, at, at + 1, name);
        let old = self.text.names[element].clone();
        for spot in self.text.constraints.clone() {
            let (line, _) = Source::spot(spot);
            for end in [1, 2] {
                if self.words(line)[end].text == old {
                    self.replace(line, end, end + 1, name);
                }
            }
        }
    }

    /// Puts elements in other places.
    fn place(&mut self, mut places: Vec<(usize, String)>) {
        // the last of a line first, so that those before it stay where they are
        places.sort_by_key(|(element, _)| std::cmp::Reverse(Source::spot(self.text.elements[*element])));
        for (element, words) in places {
            let (line, [_, size, end]) = self.words_of(element);
            self.replace(line, size, end, &words);
        }
    }
}

/// A text after a change: a statement more, or something removed, renamed, moved or of another size. The text is one
/// that is understood; the change is refused by its own columns.
pub fn change(source: &str, change: &str) -> Result<String, Refusal> {
    let mut source = Source::of(source);
    let mut line = Line::of(1, change);
    let keyword = line.word(CHANGES)?;
    let rest = |line: &Line| {
        let words = line.words()[line.passed()..].iter().map(|word| word.text);
        words.collect::<Vec<_>>().join(" ")
    };
    match keyword.text {
        REMOVE => {
            let first = source.element(&mut line)?;
            if line.more() {
                let second = source.element(&mut line)?;
                let constraint = source.between(&line, first, second)?;
                source.remove_constraint(constraint);
            } else {
                source.remove_element(first);
            }
            line.finish()?;
        }
        RENAME => {
            let element = source.element(&mut line)?;
            let name = line.word("a name")?;
            line.finish()?;
            if name.text == source.text.names[element] {
                return Ok(source.joined());
            }
            known(&source.text, &format!("point {}", name.text)).map_err(|refusal| refusal.at(1, name.column))?;
            source.rename(element, name.text);
        }
        MOVE => {
            let element = source.element(&mut line)?;
            let kind = source.text.sheet.elements[element];
            let (column, words) = (line.column(), rest(&line));
            if places::read(&mut line, kind)?.is_none() {
                return Err(line.refuse(column, &format!("expected a place, like at 0 0, found {}", quoted(&words))));
            }
            line.finish()?;
            source.place(vec![(element, words)]);
        }
        RESIZE => {
            let [a, b] = [source.element(&mut line)?, source.element(&mut line)?];
            let constraint = source.between(&line, a, b)?;
            let (at, _) = Source::spot(source.text.constraints[constraint]);
            let words: Vec<String> = source.words(at).iter().map(|word| word.text.to_string()).collect();
            let [a, b] = [a, b].map(|end| source.text.names[end].as_str());
            let statement = format!("{} {a} {b} {}", words[0], rest(&line));
            known(&source.text, &statement).map_err(|refusal| refusal.at(1, line.column()))?;
            source.replace(at, 0, words.len(), &statement);
        }
        RADIUS => {
            let element = source.element(&mut line)?;
            let (at, [name, size, _]) = source.words_of(element);
            let (column, words) = (line.column(), rest(&line));
            if source.text.sheet.elements[element].radius() == 0 {
                return Err(line.refuse(line.start(), &format!("{} is no circle", source.text.names[element])));
            }
            known(&source.text, &format!("circle new {words}")).map_err(|refusal| refusal.at(1, column))?;
            source.replace(at, name + 1, size, &words);
        }
        word if NAMING.contains(&word) => {
            known(&source.text, change)?;
            let last = source.text.elements.iter().map(|spot| Source::spot(*spot).0 + 1).max();
            let at = last.unwrap_or(source.lines.len());
            source.insert(at, change.trim());
        }
        word if HOLDING.contains(&word) || word == OPENING => {
            known(&source.text, change)?;
            source.insert(source.lines.len(), change.trim());
        }
        unknown => {
            let known = [REMOVE, RENAME, MOVE, RESIZE, RADIUS, OPENING].into_iter().chain(NAMING).chain(HOLDING);
            return Err(line.unexpected(CHANGES, keyword).hint(did_you_mean(unknown, known)));
        }
    }
    Ok(source.joined())
}

/// A text with other rough places of its elements, by number.
pub fn placed(source: &str, places: &[(usize, Rough)]) -> String {
    let mut source = Source::of(source);
    source.place(places.iter().map(|(element, place)| (*element, place.words())).collect());
    source.joined()
}

#[cfg(test)]
mod tests {
    use super::*;

    const FRAME: &str = "# a frame\npoint A B at 600 0  C  # corners\ncircle c 5 cm at 1 2\n\ndistance A B 600 # wide\ndistance B C 40 cm\n";

    /// A text after some changes.
    fn changed(source: &str, changes: &[&str]) -> String {
        changes.iter().fold(source.to_string(), |text, more| change(&text, more).unwrap())
    }

    #[test]
    fn comments_and_spaces_stay() {
        let cases = [
            ("remove B", "# a frame\npoint A  C  # corners\ncircle c 5 cm at 1 2\n\n"),
            ("remove A B", "# a frame\npoint A B at 600 0  C  # corners\ncircle c 5 cm at 1 2\n\ndistance B C 40 cm\n"),
        ];
        for (more, text) in cases {
            assert_eq!(changed(FRAME, &[more]), text, "{more}");
        }
        for (more, old, new) in [
            ("remove c", "circle c 5 cm at 1 2\n", ""),
            ("rename B corner", "point A B at", "point A corner at"),
            ("move A at -1 2.5", "point A B", "point A at -1 2.5 B"),
            ("move B at 3 4", "B at 600 0  C", "B at 3 4  C"),
            ("move c at 3 4", "5 cm at 1 2", "5 cm at 3 4"),
            ("radius c 70 mm", "c 5 cm at", "c 70 mm at"),
            ("resize A B 700", "distance A B 600 # wide", "distance A B 700 # wide"),
            ("resize B A 700", "distance A B 600 # wide", "distance B A 700 # wide"),
            ("line l from 0 0 to 1 0", "at 1 2\n", "at 1 2\nline l from 0 0 to 1 0\n"),
            ("tangent A c", "40 cm\n", "40 cm\ntangent A c\n"),
        ] {
            let renamed = |text: &str| {
                if more.starts_with("rename") {
                    text.replace(" B ", " corner ")
                } else {
                    text.to_string()
                }
            };
            assert_eq!(changed(FRAME, &[more]), renamed(&FRAME.replacen(old, new, 1)), "{more}");
        }
    }

    #[test]
    fn a_sheet_grows_from_nothing() {
        let changes = ["point A at 0 0", "point B at 9 0", "distance A B 9", "line l from 0 0 to 9 0", "on A l"];
        let text = "point A at 0 0\npoint B at 9 0\nline l from 0 0 to 9 0\ndistance A B 9\non A l\n";
        assert_eq!(changed("", &changes), text);
        assert_eq!(changed("# none\r\n", &["point A"]), "# none\r\npoint A\r\n");
        assert_eq!(changed(text, &["remove A", "remove B", "remove l"]), "");
    }

    #[test]
    fn what_is_wrong_is_told_at_its_column() {
        for (more, column) in [
            ("", 1),
            ("remove", 7),
            ("remove X", 8),
            ("remove A C", 1),
            ("rename A B", 10),
            ("rename A 1", 10),
            ("rename A x y", 12),
            ("move A", 7),
            ("move A from 0 0 to 1 1", 8),
            ("move A at 0 x", 13),
            ("resize A B x", 12),
            ("radius A 7", 1),
            ("radius c x", 10),
            ("point A", 7),
            ("distnce A B 7", 1),
        ] {
            let refusal = change(FRAME, more).unwrap_err();
            assert_eq!(Source::spot(refusal.spot).1, column, "{more}: {refusal}");
        }
    }

    #[test]
    fn places_are_written_at_once() {
        let places = [(0, Rough::At([1.0, 2.0])), (2, Rough::At([3.0, 4.0])), (3, Rough::At([5.0, 6.0]))];
        let text = FRAME
            .replace("point A B at 600 0  C", "point A at 1 2 B at 600 0  C at 3 4")
            .replace("at 1 2\n", "at 5 6\n");
        assert_eq!(placed(FRAME, &places), text);
    }
}
