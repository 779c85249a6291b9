//! The command line: a table of commands, from which come the parsing, the help and the completion.

use std::ffi::{OsStr, OsString};
use std::path::PathBuf;

use crate::fault::{Fault, Status};
use crate::json::Json;
use crate::near::nearest;

/// An option of a command.
#[derive(Debug)]
pub struct Flag {
    pub name: &'static str,
    pub short: Option<char>,
    /// What its value is, if it takes one.
    pub value: Option<&'static str>,
    pub says: &'static str,
}

/// A command.
pub struct Command {
    pub name: &'static str,
    pub operands: &'static str,
    /// The fewest and the most operands.
    pub count: (usize, usize),
    pub flags: &'static [&'static Flag],
    /// One line.
    pub summary: &'static str,
    /// Some lines more.
    pub about: &'static str,
    pub run: fn(&Call) -> Result<Answer, Fault>,
}

/// What was asked of a command.
#[derive(Debug)]
pub struct Call {
    pub command: &'static str,
    pub operands: Vec<OsString>,
    flags: Vec<(&'static str, Option<OsString>)>,
}

impl Call {
    /// Whether an option was given.
    pub fn has(&self, flag: &Flag) -> bool {
        self.flags.iter().any(|(name, _)| *name == flag.name)
    }

    /// The value of an option, the last where it was given twice.
    pub fn value(&self, flag: &Flag) -> Option<&OsStr> {
        self.flags.iter().rev().find(|(name, _)| *name == flag.name).and_then(|(_, value)| value.as_deref())
    }

    /// An operand that is text.
    pub fn text(&self, place: usize) -> Result<&str, Fault> {
        self.operands[place].to_str().ok_or_else(|| Fault::Usage(format!("operand {} is no text", place + 1)))
    }
}

/// What a command answers.
#[derive(Debug)]
pub struct Answer {
    /// What goes to standard output, or to the file of `-o`.
    pub out: Vec<u8>,
    pub to: Option<PathBuf>,
    /// Lines for standard error.
    pub notes: Vec<String>,
    pub status: Status,
}

impl Answer {
    /// An answer on standard output.
    pub fn print(out: impl Into<Vec<u8>>, status: Status) -> Answer {
        Answer { out: out.into(), to: None, notes: Vec::new(), status }
    }

    /// An answer for a program on standard output.
    pub fn json(call: &Call, value: Json, status: Status) -> Answer {
        Answer::print(envelope(Some(call.command), status, Json::List(Vec::new()), value), status)
    }

    /// An answer for a program that may go to a file.
    pub fn deliver_json(call: &Call, value: Json, status: Status) -> Answer {
        Answer::deliver(call, envelope(Some(call.command), status, Json::List(Vec::new()), value), status)
    }

    /// An answer that may go to a file.
    pub fn deliver(call: &Call, out: impl Into<Vec<u8>>, status: Status) -> Answer {
        let to = call.value(&OUTPUT).filter(|path| *path != "-").map(PathBuf::from);
        Answer { to, ..Answer::print(out, status) }
    }
}

/// What every command prints for a program (docs/pattern.schema.json): its name, the version, the exit status,
/// complaints, and the answer, which is null where there are complaints.
pub fn envelope(command: Option<&str>, status: Status, errors: Json, answer: Json) -> String {
    let fields = [
        ("command", Json::maybe(command).to_string()),
        ("version", Json::from(env!("PATTERN_VERSION")).to_string()),
        ("exit", (status as u8).to_string()),
        ("errors", errors.laid_out(1, 2)),
        ("answer", answer.laid_out(2, 2)),
    ];
    let rows = fields.map(|(name, value)| format!("  \"{name}\": {value}"));
    format!("{{\n{}\n}}\n", rows.join(",\n"))
}

/// `-o FILE`.
pub const OUTPUT: Flag =
    Flag { name: "output", short: Some('o'), value: Some("FILE"), says: "write to FILE, not to standard output" };
/// `--list FILE`.
pub const LIST: Flag = Flag {
    name: "list",
    short: None,
    value: Some("FILE"),
    says: "take names of files from FILE, a line each; - is standard input",
};
/// `--json`.
pub const JSON: Flag = Flag { name: "json", short: None, value: None, says: "print the answer as JSON" };
/// `--help`, which every command takes.
pub const HELP: Flag = Flag { name: "help", short: Some('h'), value: None, says: "print this help" };

/// Reads the arguments of a command; none where help was asked for.
pub fn parse(command: &Command, arguments: impl IntoIterator<Item = OsString>) -> Result<Option<Call>, Fault> {
    let usage = |message: String| Fault::Usage(format!("{message}\nusage: {}", usage(command)));
    let mut call = Call { command: command.name, operands: Vec::new(), flags: Vec::new() };
    let mut arguments = arguments.into_iter();
    while let Some(argument) = arguments.next() {
        let text = argument.to_str().unwrap_or_default();
        if text == "--" {
            call.operands.extend(arguments.by_ref());
        } else if text == "-" || !text.starts_with('-') {
            call.operands.push(argument);
        } else {
            let (name, joined) = match text.split_once('=') {
                Some((name, value)) => (name, Some(OsString::from(value))),
                None => (text, None),
            };
            let flags = command.flags.iter().copied().chain([&HELP]);
            let flag = match flags.into_iter().find(|flag| flag.is(name)) {
                Some(flag) => flag,
                None => {
                    let known = command.flags.iter().map(|flag| flag.name).chain([HELP.name]);
                    let hint = nearest(name.trim_start_matches('-'), known);
                    let hint = hint.map_or(String::new(), |meant| format!("; did you mean --{meant}?"));
                    return Err(usage(format!("no option is called {name}{hint}")));
                }
            };
            if flag.name == HELP.name {
                return Ok(None);
            }
            let value = match (flag.value, joined) {
                (None, None) => None,
                (None, Some(_)) => return Err(usage(format!("{name} takes no value"))),
                (Some(what), joined) => match joined.or_else(|| arguments.next()) {
                    Some(value) => Some(value),
                    None => return Err(usage(format!("{name} needs {what}"))),
                },
            };
            call.flags.push((flag.name, value));
        }
    }
    let (fewest, most) = command.count;
    if call.operands.len() < fewest && !call.has(&LIST) {
        return Err(usage(format!("{} needs {}", command.name, command.operands)));
    }
    if call.operands.len() > most {
        let extra = call.operands[most].to_string_lossy().into_owned();
        return Err(usage(format!("{} takes no more than {}, found {extra}", command.name, command.operands)));
    }
    Ok(Some(call))
}

impl Flag {
    /// Whether an argument names this option.
    fn is(&self, argument: &str) -> bool {
        argument.strip_prefix("--") == Some(self.name) || self.short.map_or(false, |c| argument == format!("-{c}"))
    }

    /// The option as it is typed.
    fn typed(&self) -> String {
        let short = self.short.map_or(String::new(), |c| format!("-{c}, "));
        let value = self.value.map_or(String::new(), |value| format!(" {value}"));
        format!("{short}--{}{value}", self.name)
    }
}

/// The usage line of a command.
fn usage(command: &Command) -> String {
    let options = if command.flags.is_empty() { "" } else { " [OPTION..]" };
    format!("pattern {}{options} {}", command.name, command.operands)
}

/// The help of a command.
pub fn help(command: &Command) -> String {
    let flags = command.flags.iter().copied().chain([&HELP]);
    let rows: String = flags.map(|flag| format!("  {:22} {}\n", flag.typed(), flag.says)).collect();
    format!("{}\n\nusage: {}\n\n{}\n\n{rows}", command.summary, usage(command), command.about.trim())
}

/// The help of the whole.
pub fn overview(commands: &[Command]) -> String {
    let rows: String = commands.iter().map(|command| format!("  {:10} {}\n", command.name, command.summary)).collect();
    format!(
        "Says whether a pattern of points, lines and circles is fully dimensioned.\n\n\
         usage: pattern COMMAND ..\n       pattern COMMAND --help\n       pattern --version\n\n{rows}\n\
         A FILE is a sheet in bytes (PF01, PF02) or in text; \"-\" is standard input.\n\n\
         Exit status: 0 well, or done; 1 another verdict, or a difference; 2 refused;\n\
         3 a file cannot be read or written; 64 usage.\n"
    )
}
