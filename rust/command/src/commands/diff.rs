//! `pattern diff`: what changed from one sheet to another.

use crate::cli::{Answer, Call, JSON};
use crate::document::Document;
use crate::fault::{Fault, Status};
use crate::finding::Finding;
use crate::json::Json;
use crate::prices::Prices;
use crate::sheet::Constraint;
use crate::text;

/// A part as the names of its elements.
type Part = Vec<String>;

/// A statement as it is compared: what it is about, and the whole of it.
#[derive(Clone, PartialEq)]
struct Item {
    about: String,
    text: String,
}

/// A sheet as it is compared: by names.
struct Side {
    verdict: &'static str,
    elements: Vec<Item>,
    constraints: Vec<Item>,
    /// The parts that are left; none of a sheet that is over.
    parts: Option<Vec<Part>>,
}

impl Side {
    /// The sheet of a document.
    fn of(document: &Document) -> Result<Side, Fault> {
        let finding = Finding::of(document, &Prices::default().of(document)?).map_err(|rule| document.refused(rule))?;
        let (names, constraints) = (&document.names, &document.sheet.constraints);
        let mut texts: Vec<_> = text::print(&document.sheet, names).lines().map(str::to_string).collect();
        let statements = texts.split_off(texts.len() - constraints.len());
        // an opening stands before the elements, and is about itself
        let opening = texts.len() - names.len();
        let openings = texts[..opening].iter().map(|text| Item { about: "opening".to_string(), text: text.clone() });
        let element = |(name, text): (&String, &String)| Item { about: name.clone(), text: text.clone() };
        let elements = openings.chain(names.iter().zip(&texts[opening..]).map(element)).collect();
        let ends = |c: &Constraint| {
            let mut ends = [&names[c.first], &names[c.second]];
            ends.sort();
            format!("{} {}", ends[0], ends[1])
        };
        let constraint = |(c, text)| Item { about: ends(c), text };
        let constraints = constraints.iter().zip(statements).map(constraint).collect();
        let part = |set: u64| document.named(set).into_iter().map(str::to_string).collect();
        let parts = finding.clusters.iter().map(|cluster| part(cluster.elements)).collect();
        let parts = finding.over.is_none().then_some(parts);
        Ok(Side { verdict: finding.verdict.name(), elements, constraints, parts })
    }
}

/// Whether one part lies within another.
fn within(small: &Part, large: &Part) -> bool {
    small.iter().all(|name| large.contains(name))
}

/// What changed.
#[derive(Default)]
struct Change {
    gone: Vec<String>,
    added: Vec<String>,
    /// What is about the same and says another thing: the old statement, and the new one.
    changed: Vec<[String; 2]>,
    /// Parts that hold an old part and more, each with the old parts in it.
    grown: Vec<(Part, Vec<Part>)>,
    /// Old parts that lie in no new one.
    broken: Vec<Part>,
}

impl Change {
    /// What changed from one side to the other.
    fn between(old: &Side, new: &Side) -> Change {
        let (empty, parts) = (Vec::new(), [&old.parts, &new.parts]);
        let [olds, news] = parts.map(|parts| parts.as_ref().unwrap_or(&empty));
        let inside = |part: &Part| olds.iter().filter(|small| within(small, part)).cloned().collect::<Vec<_>>();
        let grown = news.iter().filter(|part| !olds.contains(part)).map(|part| (part.clone(), inside(part)));
        let broken = olds.iter().filter(|part| new.parts.is_some() && !news.iter().any(|large| within(part, large)));
        let mut change = Change {
            grown: grown.filter(|(_, from)| !from.is_empty()).collect(),
            broken: broken.cloned().collect(),
            ..Change::default()
        };
        change.compare(&old.elements, &new.elements);
        change.compare(&old.constraints, &new.constraints);
        change
    }

    /// Takes in what two lists of statements do not have in common.
    fn compare(&mut self, olds: &[Item], news: &[Item]) {
        for item in olds.iter().filter(|item| !news.contains(item)) {
            match news.iter().find(|new| new.about == item.about) {
                Some(new) => self.changed.push([item.text.clone(), new.text.clone()]),
                None => self.gone.push(item.text.clone()),
            }
        }
        let new = |item: &&Item| olds.iter().all(|old| old.about != item.about);
        self.added.extend(news.iter().filter(new).map(|item| item.text.clone()));
    }

    /// The change in words.
    fn words(&self, old: &Side, new: &Side) -> String {
        let gone = self.gone.iter().map(|item| format!("- {item}\n"));
        let added = self.added.iter().map(|item| format!("+ {item}\n"));
        let changed = self.changed.iter().map(|[old, new]| format!("~ {new}, was {}\n", unlike(old, new)));
        let verdict = (old.verdict != new.verdict).then(|| format!("verdict: {}, was {}\n", new.verdict, old.verdict));
        let grown = self.grown.iter().map(|(part, from)| {
            let from: Vec<_> = from.iter().map(|part| part.join(" ")).collect();
            format!("grown: {}, from {}\n", part.join(" "), from.join("; "))
        });
        let broken = self.broken.iter().map(|part| format!("no longer rigid: {}\n", part.join(" ")));
        gone.chain(added).chain(changed).chain(verdict).chain(grown).chain(broken).collect()
    }

    /// The change for a program.
    fn json(&self, old: &Side, new: &Side) -> Json {
        let grown = self.grown.iter().map(|(part, from)| {
            let from = from.iter().map(Json::list).collect();
            Json::Object(vec![("part", Json::list(part)), ("from", Json::List(from))])
        });
        Json::Object(vec![
            ("old", old.verdict.into()),
            ("new", new.verdict.into()),
            ("gone", Json::list(&self.gone)),
            ("added", Json::list(&self.added)),
            ("changed", Json::List(self.changed.iter().map(Json::list).collect())),
            ("grown", Json::List(grown.collect())),
            ("broken", Json::List(self.broken.iter().map(Json::list).collect())),
        ])
    }
}

/// What an old statement says in place of a new one: its size alone where they differ in that, else the whole of it.
fn unlike<'a>(old: &'a str, new: &str) -> &'a str {
    let ends = old.match_indices(' ').map(|(i, _)| i + 1).filter(|&i| new.starts_with(&old[..i]));
    let rest = &old[ends.last().unwrap_or(0)..];
    if rest.starts_with(|c: char| c == '-' || c.is_ascii_digit()) {
        rest
    } else {
        old
    }
}

/// Runs the command.
pub fn run(call: &Call) -> Result<Answer, Fault> {
    let mut documents = [Document::load(&call.operands[0])?, Document::load(&call.operands[1])?];
    if documents.iter().any(|document| document.source.is_none()) {
        for document in &mut documents {
            document.names = text::default_names(&document.sheet.elements);
        }
    }
    let [old, new] = [Side::of(&documents[0])?, Side::of(&documents[1])?];
    let change = Change::between(&old, &new);
    let same = documents[0].sheet == documents[1].sheet && old.elements == new.elements;
    let status = if same { Status::Well } else { Status::Other };
    if call.has(&JSON) {
        return Ok(Answer::json(call, change.json(&old, &new), status));
    }
    let words = change.words(&old, &new);
    let words = if words.is_empty() && !same { "the same in another order\n".to_string() } else { words };
    Ok(Answer::print(words, status))
}
