//! `sheafsledge`: the proved library's answers for people. Each subcommand has a module of its own;
//! what they share, in manners and in code, stands beside them.

#![forbid(unsafe_code)]

mod command;
mod dialect;
mod digits;
mod entries;
mod fields;
mod help;
mod input;
mod join;
mod list;
mod output;
mod pairs;
mod paths;
mod pcap;
mod plan;
mod quotes;
mod recording;
mod seal;
mod status;
mod terminal;
mod r#where;
mod words;

use std::env;
use std::ffi::OsString;
use std::process::ExitCode;

use command::Command;
use status::{Failure, Status};
use words::Words;

const COMMANDS: &[Command] = &[
    list::COMMAND,
    pairs::COMMAND,
    r#where::COMMAND,
    fields::COMMAND,
    seal::COMMAND,
    paths::COMMAND,
    join::COMMAND,
    plan::COMMAND,
    entries::COMMAND,
    pcap::COMMAND,
];

fn main() -> ExitCode {
    let words: Vec<OsString> = env::args_os().skip(1).collect();
    dispatch(&words)
        .unwrap_or_else(|failure| failure.said())
        .into()
}

/// By the first word: a subcommand, or an option of the command itself.
fn dispatch(words: &[OsString]) -> Result<Status, Failure> {
    let Some((first, rest)) = words.split_first() else {
        return Err(Failure::usage("", "name a command".into()));
    };
    if let Some(command) = COMMANDS.iter().find(|command| first == command.name) {
        let words = Words::read(command.name, command.options, rest)?;
        return match words.has(help::HELP.long) {
            true => help::print(&help::of_command(command)),
            false => (command.run)(&words),
        };
    }
    let words = Words::read("", help::OPTIONS, words)?;
    match words.files() {
        _ if words.has(help::HELP.long) => help::print(&help::of_all(COMMANDS)),
        _ if words.has(help::VERSION.long) => help::print(&help::version()),
        [] => Err(Failure::usage("", "name a command".into())),
        [first, ..] => {
            let what = format!("unknown command '{}'", input::shown(first));
            Err(Failure::usage("", what))
        }
    }
}
