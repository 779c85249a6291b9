//! The whole command: its words in, what it tells and its status out.

use std::ffi::OsString;
use std::io;

use crate::cli::{self, Answer, Command};
use crate::commands::COMMANDS;
use crate::disk;
use crate::fault::{Fault, Status};
use crate::json::Json;
use crate::near::nearest;

/// Where a command tells what it has to say.
pub trait Listener {
    /// Takes what goes to standard output.
    fn print(&mut self, out: &[u8]) -> io::Result<()>;
    /// Takes a line of standard error.
    fn tell(&mut self, line: &str);
}

/// Runs the command: its answer or its complaints are told, files are written.
pub fn run(words: &[OsString], to: &mut dyn Listener) -> Status {
    let done = answer(words).and_then(|answer| {
        answer.notes.iter().for_each(|note| to.tell(note));
        write(&answer, to).map(|()| answer.status)
    });
    done.unwrap_or_else(|fault| {
        complain(&fault, words, to);
        fault.status()
    })
}

/// Finds a command.
fn find(name: &OsString) -> Result<&'static Command, Fault> {
    let known = COMMANDS.iter().map(|command| command.name);
    let hint = nearest(&name.to_string_lossy(), known)
        .map_or("pattern --help lists them".to_string(), |meant| format!("did you mean {meant}?"));
    let unknown = || Fault::Usage(format!("no command is called {}; {hint}", name.to_string_lossy()));
    COMMANDS.iter().find(|command| name == command.name).ok_or_else(unknown)
}

/// Finds the command and runs it.
fn answer(words: &[OsString]) -> Result<Answer, Fault> {
    let overview = cli::overview(&COMMANDS);
    let (name, rest) = match words {
        [name, rest @ ..] => (name, rest),
        [] => return Ok(Answer { notes: vec![overview], ..Answer::print("", Status::Usage) }),
    };
    match name.to_str().unwrap_or_default() {
        "--help" | "-h" | "help" => return Ok(Answer::print(overview, Status::Well)),
        "--version" | "-V" => {
            let line = concat!("pattern ", env!("PATTERN_VERSION"), "\n");
            return Ok(Answer::print(line, Status::Well));
        }
        _ => {}
    }
    let command = find(name)?;
    match cli::parse(command, rest.iter().cloned())? {
        Some(call) => (command.run)(&call),
        None => Ok(Answer::print(cli::help(command), Status::Well)),
    }
}

/// Writes an answer to its file or to standard output.
fn write(answer: &Answer, to: &mut dyn Listener) -> Result<(), Fault> {
    let (path, done) = match &answer.to {
        Some(path) => (path.display().to_string(), disk::write(path, &answer.out)),
        None => ("standard output".to_string(), to.print(&answer.out)),
    };
    done.map_err(|error| Fault::File { path, error })
}

/// Tells a fault: to people on standard error, to a program on standard output.
fn complain(fault: &Fault, words: &[OsString], to: &mut dyn Listener) {
    let options = words.iter().take_while(|word| *word != "--");
    if options.clone().any(|word| word == "--json") {
        let command = options.into_iter().next().and_then(|name| COMMANDS.iter().find(|known| name == known.name));
        let name = command.map(|command| command.name);
        let _ = to.print(cli::envelope(name, fault.status(), fault.json(), Json::Null).as_bytes());
    } else {
        fault.lines().iter().for_each(|line| to.tell(&format!("pattern: {line}")));
    }
}
