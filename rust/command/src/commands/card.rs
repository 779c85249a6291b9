//! `pattern card`: the verdicts of every set of distances among five points, for the training room.

use pattern::Verdict;

use super::SHEET;
use crate::cli::{Answer, Call, JSON};
use crate::engine;
use crate::fault::{Fault, Status};
use crate::json::Json;
use crate::sheet::{Constraint, Dimension, Kind, Opening, Sheet};
use crate::text::{self, Rough};

/// The points of the card.
const POINTS: usize = 5;
/// How many sets of pairs it has.
const ENTRIES: usize = 1024;

/// The pairs of some points in dictionary order.
fn pairs(points: usize) -> Vec<(usize, usize)> {
    (0..points).flat_map(|a| (a + 1..points).map(move |b| (a, b))).collect()
}

/// The verdict of some points with a set of distances between them, by the proved library: pair i of the dictionary
/// as bit i.
fn verdict(points: usize, set: usize) -> Verdict {
    if points == POINTS {
        return pattern::card(set);
    }
    let chosen = pairs(points).into_iter().enumerate().filter(|(i, _)| set >> i & 1 == 1);
    let distance = |(_, (first, second))| Constraint { first, second, dimension: Dimension::Size(300) };
    let constraints = chosen.map(distance).collect();
    let sheet = Sheet { opening: Opening::Pf01, elements: vec![Kind::Point; points], constraints };
    engine::write(&sheet).and_then(|bytes| pattern::verdict(&bytes)).expect("points and distances are a sheet")
}

/// The words of the counts, and what they count.
const COUNTED: [(&str, Verdict); 4] =
    [("over", Verdict::Over), ("well", Verdict::Well), ("stuck", Verdict::Stuck), ("under", Verdict::Under)];

/// How many sets of distances between some points get each verdict.
fn counts(points: usize) -> [(&'static str, usize); 4] {
    let verdicts: Vec<_> = (0..1 << pairs(points).len()).map(|set| verdict(points, set)).collect();
    COUNTED.map(|(word, wanted)| (word, verdicts.iter().filter(|verdict| **verdict == wanted).count()))
}

/// Where the points are in pictures and sheets of the card, in millimetres: no three in a row, no two pairs equally far.
const PLACES: [[f64; 2]; POINTS] = [[0.0, 0.0], [520.0, 0.0], [690.0, 450.0], [240.0, 740.0], [-190.0, 430.0]];

/// A set of distances among the five points as a sheet in text, its sizes taken from their places.
fn text_of(entry: usize) -> String {
    let chosen = pairs(POINTS).into_iter().enumerate().filter(|(i, _)| entry >> i & 1 == 1);
    let distance = |(_, (first, second)): (usize, (usize, usize))| {
        let [[a, b], [c, d]] = [PLACES[first], PLACES[second]];
        let size = (10.0 * (a - c).hypot(b - d)).round() as i32;
        Constraint { first, second, dimension: Dimension::Size(size) }
    };
    let constraints = chosen.map(distance).collect();
    let sheet = Sheet { opening: Opening::Pf01, elements: vec![Kind::Point; POINTS], constraints };
    let names = text::default_names(&sheet.elements);
    let places = PLACES.map(|place| Some(Rough::At(place)));
    format!("# Set {entry} of the card of five points.\n{}", text::print_placed(&sheet, &names, &places))
}

/// The entry that operands name: its number, or its pairs.
fn entry(call: &Call) -> Result<usize, Fault> {
    let usage = |text: &str| {
        let words = "an entry is a number from 0 to 1023, or pairs of the points 0 to 4 like 0-1 0-2 1-2";
        Fault::Usage(format!("{words}, found {text}"))
    };
    let first = call.text(0)?;
    if call.operands.len() == 1 && !first.contains('-') {
        return first.parse().ok().filter(|&number: &usize| number < ENTRIES).ok_or_else(|| usage(first));
    }
    let mut set = 0;
    for place in 0..call.operands.len() {
        let text = call.text(place)?;
        let ends = text.split_once('-').and_then(|(a, b)| Some((a.parse::<usize>().ok()?, b.parse::<usize>().ok()?)));
        let bit = ends.and_then(|(a, b)| pairs(POINTS).iter().position(|&pair| pair == (a.min(b), a.max(b))));
        set |= 1 << bit.ok_or_else(|| usage(text))?;
    }
    Ok(set)
}

/// Runs the command.
pub fn run(call: &Call) -> Result<Answer, Fault> {
    if !call.operands.is_empty() {
        let entry = entry(call)?;
        let name = verdict(POINTS, entry).name();
        if call.has(&JSON) {
            let mut fields = vec![("entry", entry.into()), ("verdict", name.into())];
            fields.extend(call.has(&SHEET).then(|| ("text", text_of(entry).into())));
            return Ok(Answer::json(call, Json::Object(fields), Status::Well));
        }
        if call.has(&SHEET) {
            return Ok(Answer::print(text_of(entry), Status::Well));
        }
        return Ok(Answer::print(format!("{name}\n"), Status::Well));
    }
    if call.has(&SHEET) {
        return Err(Fault::Usage("--sheet prints one set: name an entry, or its pairs".to_string()));
    }
    let rows: Vec<_> = (2..=POINTS).map(|points| (points, counts(points))).collect();
    if call.has(&JSON) {
        let object = |(points, counts): &(usize, [(&'static str, usize); 4])| {
            let counts = counts.iter().map(|(word, count)| (*word, Json::from(*count)));
            Json::Object([("points", Json::from(*points))].into_iter().chain(counts).collect())
        };
        let verdicts = (0..ENTRIES).map(|entry| pattern::card(entry).name());
        let fields = vec![
            ("counts", Json::List(rows.iter().map(object).collect())),
            ("points", Json::List(PLACES.iter().map(|&place| Json::list(place)).collect())),
            ("pairs", Json::List(pairs(POINTS).iter().map(|&(a, b)| Json::list([a, b])).collect())),
            ("verdicts", Json::list(verdicts)),
        ];
        return Ok(Answer::json(call, Json::Object(fields), Status::Well));
    }
    let line = |(points, counts): &(usize, [(&str, usize); 4])| {
        let words: String = counts.iter().map(|(word, count)| format!(" {word} {count}")).collect();
        format!("points {points}{words}\n")
    };
    Ok(Answer::print(rows.iter().map(line).collect::<String>(), Status::Well))
}
