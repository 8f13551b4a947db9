//! `compare/oracle` builds and runs this; see its head for the usage.

mod answers;
mod facts;
mod input;
mod listing;
mod questions;

use std::env;
use std::io::{self, BufRead, BufWriter, Read, Write};
use std::process::ExitCode;

use judge::judge;

const USAGE: &str = "usage: oracle [--debug] T|R HEX.. | lines | questions SEED | answers | \
    listing | kinds | leaves | limit | wrap";

/// Why there is no answer, in one line; `None` where it has been said already.
type Outcome = Result<(), Option<String>>;

fn main() -> ExitCode {
    let words: Vec<String> = env::args_os()
        .skip(1)
        .map(|word| word.to_string_lossy().into_owned())
        .collect();
    let words: Vec<&str> = words.iter().map(String::as_str).collect();
    let Err(why) = answer(&words) else {
        return ExitCode::SUCCESS;
    };
    if let Some(why) = why {
        eprintln!("oracle: {why}");
    }
    ExitCode::from(2)
}

fn answer(words: &[&str]) -> Outcome {
    match words {
        [] => Err(Some(USAGE.into())),
        ["lines"] => lines(line),
        ["questions", seed] => questions(seed),
        ["answers"] => lines(listed),
        ["listing"] => stretch(),
        ["kinds"] => say(&facts::kinds()),
        ["leaves"] => say(&facts::leaves()),
        ["limit"] => say(&facts::limit()),
        ["wrap"] => say(&facts::wrap()),
        [only] => {
            input::direction(only).map_err(|why| format!("{why}; {USAGE}"))?;
            Err(Some(format!("no hex after {only}; an empty input is ''")))
        }
        [first, hex @ ..] => {
            let direction = input::direction(first).map_err(|why| format!("{why}; {USAGE}"))?;
            let bytes = input::bytes(&hex.join(" "))?;
            say(&[judge(direction, &bytes).to_string()])
        }
    }
}

fn say(answers: &[String]) -> Outcome {
    let mut out = io::stdout().lock();
    for answer in answers {
        writeln!(out, "{answer}").map_err(unsaid)?;
    }
    Ok(())
}

/// The questions that compare/list writes.
fn questions(seed: &str) -> Outcome {
    let seed = seed
        .parse()
        .map_err(|error| format!("the seed is a number: {error}"))?;
    let list = questions::list(seed);
    say(&list.lines)?;
    let known = list.known;
    eprintln!("oracle: left out {known} that the Rust is known to answer otherwise, see docs/DIFFERENCES.md");
    Ok(())
}

fn stretch() -> Outcome {
    let mut bytes = Vec::new();
    io::stdin()
        .lock()
        .read_to_end(&mut bytes)
        .map_err(|error| format!("cannot read standard input: {error}"))?;
    say(&listing::list(&bytes))
}

fn line(text: &str) -> Result<String, String> {
    let (direction, bytes) = input::line(text)?;
    Ok(judge(direction, &bytes).to_string())
}

/// One of these questions, answered in the words of our cases.
fn listed(text: &str) -> Result<String, String> {
    let counted = |count: &str| {
        count
            .parse()
            .map_err(|error| format!("the count is a number: {error}"))
    };
    if let Some(count) = text.strip_prefix("S ") {
        return Ok(answers::letters(counted(count)?));
    }
    if let Some(count) = text.strip_prefix("W ") {
        return Ok(answers::names(counted(count)?));
    }
    let (direction, bytes) = input::line(text)?;
    Ok(answers::answer(direction, &bytes))
}

/// Answer n belongs to line n, so a malformed line is answered as well.
fn lines(answer: fn(&str) -> Result<String, String>) -> Outcome {
    let mut out = BufWriter::new(io::stdout().lock());
    let mut malformed = false;
    for (place, line) in io::stdin().lock().split(b'\n').enumerate() {
        let line = line.map_err(|error| format!("cannot read standard input: {error}"))?;
        let answer = match answer(&String::from_utf8_lossy(&line)) {
            Ok(answer) => answer,
            Err(why) => {
                eprintln!("oracle: line {}: {why}", place + 1);
                malformed = true;
                "malformed".into()
            }
        };
        writeln!(out, "{answer}").map_err(unsaid)?;
    }
    out.flush().map_err(unsaid)?;
    match malformed {
        true => Err(None),
        false => Ok(()),
    }
}

fn unsaid(error: io::Error) -> Option<String> {
    Some(format!("cannot write to standard output: {error}"))
}
