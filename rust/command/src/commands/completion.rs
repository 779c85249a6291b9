//! `pattern completion`: scripts for shells, from the table of commands.

use super::COMMANDS;
use crate::cli::{Answer, Call, Command, Flag, HELP, JSON};
use crate::fault::{Fault, Status};
use crate::json::Json;

/// Runs the command.
pub fn run(call: &Call) -> Result<Answer, Fault> {
    let script = match call.text(0)? {
        "bash" => bash(),
        "zsh" => zsh(),
        "fish" => fish(),
        other => return Err(Fault::Usage(format!("a shell is bash, zsh or fish, found {other}"))),
    };
    if call.has(&JSON) {
        let fields = vec![("shell", call.text(0)?.into()), ("script", script.into())];
        return Ok(Answer::json(call, Json::Object(fields), Status::Well));
    }
    Ok(Answer::print(script, Status::Well))
}

/// The options of a command.
fn flags(command: &Command) -> impl Iterator<Item = &'static Flag> {
    command.flags.iter().copied().chain([&HELP])
}

/// What an option says, without the quotation marks that a script would take for its own.
fn says(flag: &Flag) -> String {
    flag.says.replace('"', "")
}

/// Something of each command, joined.
fn each(row: impl Fn(&Command) -> String, between: &str) -> String {
    COMMANDS.iter().map(row).collect::<Vec<_>>().join(between)
}

/// The script for bash.
fn bash() -> String {
    let case = |command: &Command| {
        let words: Vec<_> = flags(command).map(|flag| format!("--{}", flag.name)).collect();
        format!("        {}) words='{}' ;;", command.name, words.join(" "))
    };
    let names = each(|command| command.name.to_string(), " ");
    include_str!("completion/bash.template").replace("@NAMES@", &names).replace("@CASES@", &each(case, "\n"))
}

/// The script for zsh.
fn zsh() -> String {
    let option = |flag: &Flag| {
        let (sign, value) = flag.value.map_or(("", String::new()), |value| ("=", format!(":{value}:_files")));
        format!("'--{}{sign}[{}]{value}'", flag.name, says(flag))
    };
    let case = |command: &Command| {
        let words: Vec<_> = flags(command).map(option).collect();
        format!("        {}) _arguments {} '*:file:_files' ;;", command.name, words.join(" "))
    };
    let names = each(|command| format!("        '{}:{}'", command.name, command.summary), "\n");
    include_str!("completion/zsh.template").replace("@NAMES@", &names).replace("@CASES@", &each(case, "\n"))
}

/// The script for fish.
fn fish() -> String {
    let row = |command: &Command| {
        let (name, summary) = (command.name, command.summary);
        let option = |flag: &Flag| {
            let value = if flag.value.is_some() { " -r" } else { "" };
            let seen = format!("'__fish_seen_subcommand_from {name}'");
            format!("complete -c pattern -n {seen} -l {}{value} -d '{}'\n", flag.name, says(flag))
        };
        let first = format!("complete -c pattern -n __fish_use_subcommand -a {name} -d '{summary}'\n");
        [first].into_iter().chain(flags(command).map(option)).collect()
    };
    format!("# fish completion for pattern\n{}", each(row, ""))
}
