//! Advice in words and as JSON.

use pattern::Verdict;

use super::counted;
use crate::advice::{Advice, Change, Excess, Extra, Link, Pair, Ring};
use crate::document::Document;
use crate::draw::Agreement;
use crate::finding::Finding;
use crate::json::Json;

/// The longest line of a list in characters.
const WRAP: usize = 100;

/// What to change in a sheet, a line each.
pub fn lines(document: &Document, finding: &Finding, advice: &Advice) -> Vec<String> {
    let mut lines = Vec::new();
    if let Some(excess) = &advice.excess {
        lines.extend(too_many(document, finding, excess));
    }
    if let Some(ring) = &advice.ring {
        lines.extend(round(document, ring));
    }
    if finding.verdict == Verdict::Under {
        lines.extend(measure(document, advice));
    }
    lines.extend(change(document, finding, advice));
    if advice.stopped && advice.change.as_ref().map_or(true, |change| !change.out.is_empty()) {
        let less = if advice.change.is_some() { ": less may do" } else { "" };
        lines.push(format!("stopped looking after {} tries{less}", advice.tries));
    }
    lines
}

/// A list behind its heading, in lines that are short enough.
fn listed(heading: &str, items: impl IntoIterator<Item = String>, end: &str) -> Vec<String> {
    let mut lines = vec![heading.to_string()];
    let mut items = items.into_iter().peekable();
    while let Some(item) = items.next() {
        let item = if items.peek().is_some() { item + "," } else { item + end };
        let last = lines.len() - 1;
        if lines[last].chars().count() + item.chars().count() >= WRAP {
            lines.push(format!("   {item}"));
        } else {
            lines[last].extend([" ", &item]);
        }
    }
    lines
}

/// A constraint by its statement and its number.
fn constraint(document: &Document, k: usize) -> String {
    format!("{} (constraint {k})", document.statement(k))
}

/// A name that no element has, for a new point.
fn new_name(document: &Document) -> String {
    let free = |name: &String| !document.names.contains(name);
    let letters = ["P", "Q", "X"].iter().map(|name| name.to_string());
    letters.chain((1..).map(|i| format!("P{i}"))).find(free).unwrap_or_default()
}

/// A pair by its names; a new point has the one that is given.
fn pair(document: &Document, point: &str, &(a, b): &Pair) -> String {
    let name = |i: usize| document.names.get(i).map_or(point, |name| name.as_str()).to_string();
    // a new point stands first
    if b >= document.names.len() {
        format!("{} {}", name(b), name(a))
    } else {
        format!("{} {}", name(a), name(b))
    }
}

/// What is too many, and what may be left out for it.
fn too_many(document: &Document, finding: &Finding, excess: &Excess) -> Vec<String> {
    let mut lines = Vec::new();
    if let [extra] = &excess.extras[..] {
        // the first one that the report names, and the one part
        let named = finding.over.as_ref().map_or(extra.constraint, |over| over.constraint);
        lines.push(format!("one too many: {}", constraint(document, named)));
        lines.push(format!("the part {} is fixed without it", document.named(extra.part).join(" ")));
        lines.extend(choices(
            document,
            extra,
            ["leave out one of these, then it is", "or one of these, then it is"],
            None,
        ));
    } else {
        for extra in &excess.extras {
            let part = document.named(extra.part).join(" ");
            lines.push(format!("one too many: {}, in the part {part}", constraint(document, extra.constraint)));
        }
        lines.push(format!("with all of these left out it is {}", excess.verdict.name()));
        for extra in &excess.extras {
            let of = document.statement(extra.constraint);
            let heads = [&format!("in place of {of} one of these, then it is")[..], "or one of these, then it is"];
            lines.extend(choices(document, extra, heads, Some(extra.constraint)));
        }
    }
    for (extra, agreement) in excess.extras.iter().zip(&finding.agreements) {
        lines.extend(agreement.as_ref().map(|agreement| agreed(document, extra, agreement)));
    }
    lines
}

/// What may be left out for an extra, by the verdict that it gives, but for one.
fn choices(document: &Document, extra: &Extra, heads: [&str; 2], but: Option<usize>) -> Vec<String> {
    let chosen: Vec<_> = extra.choices.iter().filter(|(k, _)| Some(*k) != but).collect();
    let mut lines = Vec::new();
    let mut from = 0;
    while from < chosen.len() {
        let verdict = chosen[from].1;
        let to = from + chosen[from..].iter().take_while(|(_, other)| *other == verdict).count();
        let head = format!("{} {}:", heads[usize::from(from > 0)], verdict.name());
        lines.extend(listed(&head, chosen[from..to].iter().map(|(k, _)| constraint(document, *k)), ""));
        from = to;
    }
    lines
}

/// Whether an extra agrees with the others.
fn agreed(document: &Document, extra: &Extra, agreement: &Agreement) -> String {
    let (of, words) = (document.statement(extra.constraint), agreement.words(&document.sheet, extra.constraint));
    format!("numeric, not proved: {of}: {words}")
}

/// The angles of which one follows from the others.
fn round(document: &Document, ring: &Ring) -> Vec<String> {
    let name = |i: usize| document.names[ring.lines[i % ring.lines.len()]].as_str();
    let item = |(i, link): (usize, &Link)| match link {
        Link::Angle(k) => constraint(document, *k),
        Link::Part(set) => format!("{} to {} by the part {}", name(i), name(i + 1), document.named(*set).join(" ")),
    };
    listed("one of these follows from the others:", ring.links.iter().enumerate().map(item), "")
}

/// What to measure next.
fn measure(document: &Document, advice: &Advice) -> Vec<String> {
    let pairs = |change: &Change| change.measure.iter().map(|of| pair(document, "", of)).collect::<Vec<_>>();
    let added = advice.change.as_ref().filter(|change| change.out.is_empty() && change.point.is_none());
    let cheapest = match &advice.cheapest {
        Some(cheapest) => cheapest,
        None => {
            let words = "no distances that may be measured will do: angles are missing, or prices forbid too much";
            return vec![words.to_string()];
        }
    };
    match added {
        Some(change) if change.price == cheapest.price => listed("measure next:", pairs(change), " (cheapest, well)"),
        Some(change) => {
            let end = format!(" (cheapest by count, but {})", cheapest.verdict.name());
            let mut lines = listed("measure next:", pairs(cheapest), &end);
            lines.extend(listed(&format!("for {} more:", change.price - cheapest.price), pairs(change), " (well)"));
            lines
        }
        None => {
            let end = format!(" (cheapest by count, but {})", cheapest.verdict.name());
            listed("measure next:", pairs(cheapest), &end)
        }
    }
}

/// The change that gives "well", where it is not told yet.
fn change(document: &Document, finding: &Finding, advice: &Advice) -> Vec<String> {
    let told = |change: &Change| match &advice.excess {
        Some(excess) => change.measure.is_empty() && change.out == excess.out(),
        None => finding.verdict == Verdict::Under && change.out.is_empty() && change.point.is_none(),
    };
    let change = match &advice.change {
        Some(change) if told(change) => return Vec::new(),
        Some(change) => change,
        None => return vec!["no change was found that makes it well".to_string()],
    };
    let point = new_name(document);
    let mut lines = Vec::new();
    if !change.out.is_empty() {
        lines.extend(listed("to make it well, leave out:", change.out.iter().map(|&k| constraint(document, k)), ""));
    }
    let lead = if change.out.is_empty() { "to make it well, " } else { "and " };
    if let Some([a, b]) = change.point {
        let (a, b) = (&document.names[a], &document.names[b]);
        lines.push(format!("{lead}put a point {point} where {a} and {b} meet: on {point} {a}, on {point} {b}"));
    }
    let lead = if change.point.is_some() { "and " } else { lead };
    if !change.measure.is_empty() {
        let pairs = change.measure.iter().map(|of| pair(document, &point, of));
        lines.extend(listed(&format!("{lead}measure:"), pairs, ""));
    }
    lines
}

/// The sentence on what is missing or too many in all.
pub fn count(advice: &Advice) -> Option<String> {
    let excess = advice.excess.as_ref()?;
    let in_all = if excess.extras.len() > 1 { " in all" } else { "" };
    Some(format!("{} too many{in_all}", counted(excess.extras.len(), "dimension")))
}

/// The advice for a program.
pub fn json(document: &Document, finding: &Finding, advice: &Advice) -> Json {
    let point = new_name(document);
    let change_json = |change: &Change| change_json(document, &point, change);
    let extra = |(i, extra): (usize, &Extra)| extra_json(document, finding, i, extra);
    let too_many =
        advice.excess.as_ref().map_or(Vec::new(), |excess| excess.extras.iter().enumerate().map(extra).collect());
    let ring = advice.ring.as_ref().map(|ring| {
        Json::Object(vec![
            ("lines", Json::list(ring.lines.iter().map(|&line| document.names[line].as_str()))),
            ("angles", Json::list(ring.angles())),
        ])
    });
    Json::Object(vec![
        ("too_many", Json::List(too_many)),
        ("without_them", Json::maybe(advice.excess.as_ref().map(|excess| excess.verdict.name()))),
        ("ring", ring.unwrap_or(Json::Null)),
        ("cheapest", advice.cheapest.as_ref().map_or(Json::Null, change_json)),
        ("change", advice.change.as_ref().map_or(Json::Null, change_json)),
        ("tries", advice.tries.into()),
        ("stopped", advice.stopped.into()),
    ])
}

/// A change for a program.
fn change_json(document: &Document, point: &str, change: &Change) -> Json {
    let name = |i: usize| document.names.get(i).map_or(point, |name| name.as_str());
    let measure = change.measure.iter().map(|&(a, b)| Json::list([name(a), name(b)]));
    let new = change.point.map(|lines| {
        Json::Object(vec![("name", point.into()), ("on", Json::list(lines.iter().map(|&line| name(line))))])
    });
    Json::Object(vec![
        ("leave_out", Json::list(change.out.iter().copied())),
        ("new_point", new.unwrap_or(Json::Null)),
        ("measure", Json::List(measure.collect())),
        ("price", change.price.into()),
        ("verdict", change.verdict.name().into()),
    ])
}

/// A constraint too many for a program.
fn extra_json(document: &Document, finding: &Finding, place: usize, extra: &Extra) -> Json {
    let choices = extra.choices.iter().map(|(k, verdict)| {
        Json::Object(vec![
            ("constraint", (*k).into()),
            ("statement", document.statement(*k).into()),
            ("verdict", verdict.name().into()),
        ])
    });
    let agreement = finding.agreements.get(place).and_then(Option::as_ref);
    Json::Object(vec![
        ("constraint", extra.constraint.into()),
        ("statement", document.statement(extra.constraint).into()),
        ("part", Json::list(document.named(extra.part))),
        ("fixed_by", Json::list(extra.fixed_by.iter().copied())),
        ("choices", Json::List(choices.collect())),
        ("numeric", agreement.map_or(Json::Null, Agreement::json)),
    ])
}
