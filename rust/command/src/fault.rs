//! What goes wrong, in words, and the exit status that it ends with.

use std::fmt;
use std::io;

use pattern::Rule;

use crate::json::Json;

/// The exit statuses of the command.
#[derive(Clone, Copy, PartialEq, Eq, PartialOrd, Ord, Debug)]
pub enum Status {
    /// The verdict is "well", or what was asked is done.
    Well = 0,
    /// Another verdict, or a difference.
    Other = 1,
    /// A rule refuses, or a text form cannot be understood.
    Refused = 2,
    /// A file cannot be read or written.
    File = 3,
    /// The command line is wrong.
    Usage = 64,
}

/// A place in a file.
#[derive(Clone, Copy, PartialEq, Eq, Debug)]
pub enum Spot {
    /// A byte of a sheet, counted from 0.
    Byte(usize),
    /// A character of a text form: line and column, counted from 1.
    Text { line: usize, column: usize },
    /// The file as a whole.
    Whole,
}

impl Spot {
    /// Line and column, by which complaints about a text are sorted; those about the whole of it come last.
    pub fn order(self) -> (usize, usize) {
        match self {
            Spot::Text { line, column } => (line, column),
            _ => (usize::MAX, 0),
        }
    }
}

/// One complaint about a file.
#[derive(Clone, PartialEq, Eq, Debug)]
pub struct Refusal {
    pub spot: Spot,
    /// The rule of the engine, or none where a text form cannot be understood.
    pub rule: Option<Rule>,
    /// What stands at the place, or what was expected there.
    pub words: String,
    /// The constraint at fault.
    pub constraint: Option<usize>,
    /// What would be accepted, or what was meant; empty where nothing is known.
    pub hint: String,
    /// The part that cannot take a constraint, where one is refused for it.
    pub fixed: Option<Fixed>,
}

/// A part that is fixed already, and the constraints by number that fix it.
#[derive(Clone, PartialEq, Eq, Debug)]
pub struct Fixed {
    pub part: Vec<String>,
    pub by: Vec<usize>,
}

impl Refusal {
    /// A text form that cannot be understood.
    pub fn text(line: usize, column: usize, words: String) -> Refusal {
        Refusal {
            spot: Spot::Text { line, column },
            rule: None,
            words,
            constraint: None,
            hint: String::new(),
            fixed: None,
        }
    }

    /// A rule that refuses what some words name, at a place.
    pub fn rule(spot: Spot, rule: Rule, words: impl Into<String>) -> Refusal {
        Refusal { spot, rule: Some(rule), words: words.into(), constraint: None, hint: String::new(), fixed: None }
    }

    /// The same at another place of a text.
    pub fn at(self, line: usize, column: usize) -> Refusal {
        Refusal { spot: Spot::Text { line, column }, ..self }
    }

    /// A rule that refuses a call as a whole.
    pub fn whole(rule: Rule) -> Refusal {
        Refusal::rule(Spot::Whole, rule, "")
    }

    /// A file that is no sheet, plan or list, by no rule.
    pub fn file(words: impl Into<String>) -> Refusal {
        Refusal {
            spot: Spot::Whole,
            rule: None,
            words: words.into(),
            constraint: None,
            hint: String::new(),
            fixed: None,
        }
    }

    /// The complaint with a way out.
    pub fn hint(self, hint: impl Into<String>) -> Refusal {
        Refusal { hint: hint.into(), ..self }
    }

    /// The complaint in words, without the way out.
    fn message(&self) -> String {
        let rule = match self.rule {
            Some(rule) => rule,
            None => return self.words.clone(),
        };
        match (self.spot, self.words.as_str()) {
            (Spot::Byte(byte), words) => format!("{rule} (byte {byte}, {words})"),
            (_, "") => rule.to_string(),
            (_, words) => format!("{rule} ({words})"),
        }
    }
}

impl fmt::Display for Refusal {
    fn fmt(&self, f: &mut fmt::Formatter) -> fmt::Result {
        f.write_str(&self.message())?;
        if self.hint.is_empty() {
            Ok(())
        } else {
            write!(f, "; {}", self.hint)
        }
    }
}

/// Why a command gives no answer.
#[derive(Debug)]
pub enum Fault {
    Usage(String),
    File { path: String, error: io::Error },
    Refused { path: String, refusals: Vec<Refusal> },
}

impl Fault {
    /// A refusal of a file.
    pub fn refused(path: &str, refusal: Refusal) -> Fault {
        Fault::Refused { path: path.to_string(), refusals: vec![refusal] }
    }

    /// A refusal by a rule of a call on a file as a whole.
    pub fn rule(path: &str, rule: Rule) -> Fault {
        Fault::refused(path, Refusal::whole(rule))
    }

    /// The status that the command ends with.
    pub fn status(&self) -> Status {
        match self {
            Fault::Usage(_) => Status::Usage,
            Fault::File { .. } => Status::File,
            Fault::Refused { .. } => Status::Refused,
        }
    }

    /// The word for it.
    pub fn name(&self) -> &'static str {
        match self {
            Fault::Usage(_) => "usage",
            Fault::File { .. } => "unreadable",
            Fault::Refused { .. } => "refused",
        }
    }

    /// Every complaint in words, a line each.
    pub fn lines(&self) -> Vec<String> {
        match self {
            Fault::Usage(message) => vec![message.clone()],
            Fault::File { path, error } => vec![format!("{path}: {}", reason(error))],
            Fault::Refused { path, refusals } => refusals.iter().map(|refusal| placed(path, refusal)).collect(),
        }
    }

    /// What counts as the reason of a refusal where reasons are counted, the rule, or none where a text was not
    /// understood; and the first complaint in short.
    pub fn reason(&self) -> Option<(Option<u8>, String)> {
        match self {
            Fault::Refused { path, refusals } => refusals.first().map(|first| {
                let place =
                    placed(path, &Refusal { words: String::new(), rule: None, hint: String::new(), ..first.clone() });
                let words = first.rule.map_or(first.words.as_str(), |rule| rule.reason());
                (first.rule.map(|rule| rule.0), place + words)
            }),
            _ => None,
        }
    }

    /// Every complaint for a program.
    pub fn json(&self) -> Json {
        Json::List(match self {
            Fault::Usage(message) => {
                let (words, usage) = message.split_once('\n').unwrap_or((message, ""));
                vec![error_json(None, self.name(), words, Some(&Refusal::file("").hint(usage)))]
            }
            Fault::File { path, error } => vec![error_json(Some(path), self.name(), &reason(error), None)],
            Fault::Refused { path, refusals } => {
                let object = |refusal: &Refusal| error_json(Some(path), self.name(), &refusal.message(), Some(refusal));
                refusals.iter().map(object).collect()
            }
        })
    }
}

impl fmt::Display for Fault {
    fn fmt(&self, f: &mut fmt::Formatter) -> fmt::Result {
        f.write_str(&self.lines().join("\n"))
    }
}

/// A complaint behind the place that it is about.
fn placed(path: &str, refusal: &Refusal) -> String {
    match refusal.spot {
        Spot::Text { line, column } => format!("{path}:{line}:{column}: {refusal}"),
        _ => format!("{path}: {refusal}"),
    }
}

/// One complaint for a program: every field stands there, null where it says nothing.
fn error_json(path: Option<&str>, status: &'static str, message: &str, refusal: Option<&Refusal>) -> Json {
    let (line, column, byte) = match refusal.map(|refusal| refusal.spot) {
        Some(Spot::Text { line, column }) => (line.into(), column.into(), Json::Null),
        Some(Spot::Byte(byte)) => (Json::Null, Json::Null, byte.into()),
        _ => (Json::Null, Json::Null, Json::Null),
    };
    let hint = refusal.map(|refusal| refusal.hint.as_str()).filter(|hint| !hint.is_empty());
    Json::Object(vec![
        ("file", Json::maybe(path)),
        ("status", status.into()),
        ("rule", Json::maybe(refusal.and_then(|refusal| refusal.rule).map(|rule| rule.0))),
        ("line", line),
        ("column", column),
        ("byte", byte),
        ("constraint", Json::maybe(refusal.and_then(|refusal| refusal.constraint))),
        ("message", message.into()),
        ("hint", Json::maybe(hint)),
        ("over", Json::maybe(refusal.and_then(|refusal| refusal.fixed.as_ref()).map(fixed))),
    ])
}

/// A part that is fixed already, for a program.
fn fixed(fixed: &Fixed) -> Json {
    Json::Object(vec![("part", Json::list(&fixed.part)), ("fixed_by", Json::list(fixed.by.iter().copied()))])
}

/// The system's words for an error, without its number.
fn reason(error: &io::Error) -> String {
    let words = error.to_string();
    words.split(" (os error").next().unwrap_or_default().to_string()
}
