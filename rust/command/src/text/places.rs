//! Rough places in the text form: `at X Y` behind a point or a circle, `from X Y to X Y` behind a line, in millimetres.
//! A layout begins there; no verdict looks at them, and they are never in the bytes.

use super::line::Line;
use crate::fault::Refusal;
use crate::sheet::Kind;

/// The words that begin a place.
pub const AT: &str = "at";
const FROM: &str = "from";
const TO: &str = "to";
/// The farthest coordinate, in millimetres.
const FARTHEST: f64 = 1_000_000.0;

/// Where an element roughly is, in millimetres.
#[derive(Clone, Copy, PartialEq, Debug)]
pub enum Rough {
    /// A point, or the centre of a circle.
    At([f64; 2]),
    /// A line: it runs through the first point towards the second.
    Along([[f64; 2]; 2]),
}

impl Rough {
    /// The place as it is written behind the name of its element.
    pub fn words(&self) -> String {
        let pair = |[x, y]: [f64; 2]| format!("{} {}", coordinate(x), coordinate(y));
        match *self {
            Rough::At(place) => format!("{AT} {}", pair(place)),
            Rough::Along([a, b]) => format!("{FROM} {} {TO} {}", pair(a), pair(b)),
        }
    }
}

/// A coordinate to a thousandth of a millimetre, without zeros at its end.
pub fn coordinate(x: f64) -> String {
    let text = format!("{x:.3}");
    match text.trim_end_matches('0').trim_end_matches('.') {
        "-0" => "0".to_string(),
        short => short.to_string(),
    }
}

/// Whether a word begins a place, and not the next name: a number stands behind it.
pub fn begins(word: &str, next: Option<&str>) -> bool {
    let number = |next: &str| next.starts_with(|c: char| c.is_ascii_digit() || "+-.".contains(c));
    (word == AT || word == FROM) && next.map_or(false, number)
}

/// The place behind the name of an element of a kind, if one is written there.
pub fn read(line: &mut Line, kind: Kind) -> Result<Option<Rough>, Refusal> {
    let word = match line.place() {
        Some(word) => word,
        None => return Ok(None),
    };
    match (kind.is_line(), word.text) {
        (false, AT) => Ok(Some(Rough::At(pair(line)?))),
        (true, FROM) => {
            let a = pair(line)?;
            let to = line.word("to X Y")?;
            if to.text != TO {
                return Err(line.unexpected("to X Y", to));
            }
            let column = line.column();
            let b = pair(line)?;
            if a == b {
                return Err(
                    line.refuse(column, "expected another place than the first: a line runs from one to the other")
                );
            }
            Ok(Some(Rough::Along([a, b])))
        }
        (false, _) => Err(line.unexpected("at X Y (a line is placed by from X Y to X Y)", word)),
        (true, _) => Err(line.unexpected("from X Y to X Y (a point or circle is placed by at X Y)", word)),
    }
}

/// A way from one place to another: `from X Y to X Y`.
pub fn way(line: &mut Line) -> Result<[[f64; 2]; 2], Refusal> {
    let from = line.word("from X Y to X Y")?;
    if from.text != FROM {
        return Err(line.unexpected("from X Y to X Y", from));
    }
    let a = pair(line)?;
    let to = line.word("to X Y")?;
    if to.text != TO {
        return Err(line.unexpected("to X Y", to));
    }
    Ok([a, pair(line)?])
}

/// Whether a place may be written.
pub fn within(place: &Rough) -> bool {
    let near = |[x, y]: [f64; 2]| x.abs() <= FARTHEST && y.abs() <= FARTHEST;
    match *place {
        Rough::At(at) => near(at),
        Rough::Along([a, b]) => near(a) && near(b),
    }
}

/// Two coordinates.
fn pair(line: &mut Line) -> Result<[f64; 2], Refusal> {
    Ok([number(line)?, number(line)?])
}

/// A coordinate.
fn number(line: &mut Line) -> Result<f64, Refusal> {
    let what = "a coordinate in millimetres, like 600 or -12.5";
    let word = line.word(what)?;
    let plain = word.text.chars().all(|c| c.is_ascii_digit() || "+-.".contains(c));
    match word.text.parse::<f64>() {
        Ok(x) if plain && x.abs() <= FARTHEST => Ok(x),
        Ok(_) if plain => Err(line.unexpected("a coordinate from -1000000 to 1000000 mm", word)),
        _ => Err(line.unexpected(what, word)),
    }
}

#[cfg(test)]
mod tests {
    use super::*;

    #[test]
    fn coordinates_are_short() {
        for (x, text) in
            [(0.0, "0"), (-0.0001, "0"), (600.0, "600"), (-12.5, "-12.5"), (0.12345, "0.123"), (10.0, "10")]
        {
            assert_eq!(coordinate(x), text);
        }
    }

    #[test]
    fn a_place_begins_before_a_number() {
        assert!(begins("at", Some("0")) && begins("from", Some("-1.5")) && begins("at", Some("+3")));
        assert!(!begins("at", Some("B")) && !begins("at", None) && !begins("to", Some("0")));
    }
}
