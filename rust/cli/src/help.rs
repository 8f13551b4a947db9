//! `--help` and `--version`. What they say of options comes from the table that the words are read
//! by.

use crate::command::Command;
use crate::output::Output;
use crate::status::{Failure, Status};
use crate::words::Opt;

pub const HELP: Opt = Opt {
    long: "help",
    short: Some('h'),
    value: None,
    says: "prints this",
};

pub const VERSION: Opt = Opt {
    long: "version",
    short: Some('V'),
    value: None,
    says: "prints the version, and which library it is for",
};

/// Those of the command itself.
pub const OPTIONS: &[Opt] = &[HELP, VERSION];

/// Where the column starts that says what an option or a command does.
const COLUMN: usize = 22;

const STATUS: &str = "\
2 for bad usage, or a file that cannot be read or written; 141 if a closed pipe
ended it.
";

pub fn print(text: &str) -> Result<Status, Failure> {
    let mut output = Output::open(None)?;
    output.text().extend_from_slice(text.as_bytes());
    output.finish()?;
    Ok(Status::Sound)
}

pub fn version() -> String {
    let (version, boundary) = (env!("CARGO_PKG_VERSION"), sheafsledge_sys::BOUNDARY);
    format!("sheafsledge {version}\nlibrary of boundary {boundary}\n")
}

pub fn of_all(commands: &[Command]) -> String {
    let mut text = String::from(
        "Usage: sheafsledge COMMAND [WORD]..\n\n\
         9P2000.L frames and those of 9P2000 and 9P2000.u, looked at by a proved library.\n\nCommands:\n",
    );
    for command in commands {
        text += &row(command.name, command.says);
    }
    text += "\nOptions:\n";
    text += &rows(OPTIONS);
    text += "\nExample:\n";
    for command in commands {
        text += &examples(command);
    }
    text + "\n'sheafsledge COMMAND --help' says what a command takes.\n"
}

pub fn of_command(command: &Command) -> String {
    let Command {
        name,
        usage,
        about,
        status,
        ..
    } = command;
    let (options, examples) = (rows(command.options), examples(command));
    format!(
        "Usage: sheafsledge {name} {usage}\n\n{about}\n\
         Options:\n{options}\nExample:\n{examples}\nStatus: {status};\n{STATUS}"
    )
}

fn examples(command: &Command) -> String {
    let lines = command.examples.iter();
    lines
        .map(|words| format!("  sheafsledge {words}\n"))
        .collect()
}

fn rows(options: &[Opt]) -> String {
    let rows = options.iter();
    rows.map(|option| row(&spelt(option), option.says))
        .collect()
}

/// `-o, --output FILE`
fn spelt(option: &Opt) -> String {
    let long = option.long;
    let short = option
        .short
        .map_or(String::new(), |short| format!("-{short}, "));
    let value = option
        .value
        .map_or(String::new(), |value| format!(" {value}"));
    format!("{short}--{long}{value}")
}

/// What it says may have several lines.
fn row(name: &str, says: &str) -> String {
    let lines = says.replace('\n', &format!("\n{:COLUMN$}", ""));
    format!("  {name:<width$}{lines}\n", width = COLUMN - 2)
}
