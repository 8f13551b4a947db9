//! The help, the manual page and the completions speak of the same commands and options.

use std::collections::BTreeSet;
use std::process::Command;

use crate::running::*;

const MANUAL: &str = include_str!("../../share/sheafsledge.1");
const COMPLETIONS: &str = concat!(env!("CARGO_MANIFEST_DIR"), "/share/sheafsledge.bash");

fn words(text: &str) -> BTreeSet<String> {
    text.split_whitespace().map(String::from).collect()
}

/// `-o` and `--output` of the rows below a heading, up to an empty line.
fn rows<'a>(help: &'a str, heading: &'a str) -> impl Iterator<Item = &'a str> {
    let mut lines = help.lines().skip_while(move |line| *line != heading);
    lines.next();
    lines
        .take_while(|line| !line.is_empty())
        .filter(|line| !line.starts_with("   "))
}

fn options(help: &str) -> BTreeSet<String> {
    let names = rows(help, "Options:").flat_map(|row| row.split([' ', ',']));
    names
        .filter(|name| name.starts_with('-'))
        .map(String::from)
        .collect()
}

fn commands(help: &str) -> BTreeSet<String> {
    rows(help, "Commands:")
        .filter_map(|row| row.split_whitespace().next())
        .map(String::from)
        .collect()
}

/// What stands in bold in a section of the manual, with its dashes.
fn manual(section: &str) -> BTreeSet<String> {
    let lines = MANUAL
        .lines()
        .skip_while(|line| !line.ends_with(section))
        .skip(1);
    let lines = lines.take_while(|line| !line.starts_with(".S"));
    let text: String = lines.collect::<Vec<_>>().join(" ").replace("\\-", "-");
    let bold = text
        .split("\\fB")
        .skip(1)
        .filter_map(|part| part.split("\\fR").next());
    bold.filter(|word| word.starts_with('-') && *word != "-")
        .map(String::from)
        .collect()
}

/// What bash offers for the last of these words; none without bash.
fn offered(typed: &[&str]) -> Option<BTreeSet<String>> {
    let script = "source \"$1\"; shift; COMP_WORDS=(\"$@\"); COMP_CWORD=$(($# - 1)); \
                  _sheafsledge; printf '%s\\n' \"${COMPREPLY[@]}\"";
    let mut bash = Command::new("bash");
    bash.args(["-uc", script, "bash", COMPLETIONS]).args(typed);
    let output = bash.output().ok()?;
    assert!(
        output.status.success() && output.stderr.is_empty(),
        "{output:?}"
    );
    Some(words(&String::from_utf8_lossy(&output.stdout)))
}

#[test]
fn all_texts_have_the_same_commands() {
    let help = run(&["--help"]).out;
    let (commands, options) = (commands(&help), options(&help));
    assert!(commands.contains("list") && options.contains("--version"));
    for command in &commands {
        let section = format!(".SS {command}\n");
        assert!(MANUAL.contains(&section), "{section}");
    }
    assert_eq!(manual("SH OPTIONS"), options);
    if let Some(offers) = offered(&["sheafsledge", ""]) {
        assert_eq!(offers, commands.union(&options).cloned().collect());
    }
}

#[test]
fn all_texts_have_the_same_options() {
    for command in commands(&run(&["--help"]).out) {
        let options = options(&run(&[&command, "--help"]).out);
        assert_eq!(manual(&format!("SS {command}")), options, "{command}");
        if let Some(offers) = offered(&["sheafsledge", &command, "-"]) {
            assert_eq!(offers, options, "{command}");
        }
    }
}

#[test]
fn files_are_completed() {
    let folder = Folder::new();
    let file = folder.file("session one.bin", b"");
    let start = folder.no_file("ses");
    for typed in [
        &["sheafsledge", "list", &start][..],
        &["sheafsledge", "list", "--json", &start],
        &["sheafsledge", "list", "-o", &start],
        &["sheafsledge", "list", "--output", "=", &start],
        &["sheafsledge", "list", "--", &start],
    ] {
        if let Some(offers) = offered(typed) {
            assert_eq!(offers, words(&file), "{typed:?}");
        }
    }
    if let Some(offers) = offered(&["sheafsledge", "list", "--", "--"]) {
        assert_eq!(offers, BTreeSet::new(), "after `--` there are files alone");
    }
    if let Some(offers) = offered(&["sheafsledge", "l"]) {
        assert_eq!(offers, words("list"));
    }
}

#[test]
fn dialects_are_completed() {
    for (typed, told) in [
        (
            &["sheafsledge", "list", "--dialect", ""][..],
            "9P2000.L 9P2000 9P2000.u",
        ),
        (
            &["sheafsledge", "fields", "--dialect", "="],
            "9P2000.L 9P2000 9P2000.u",
        ),
        (
            &["sheafsledge", "pairs", "--dialect", "=", "9P2000."],
            "9P2000.L 9P2000.u",
        ),
        (&["sheafsledge", "where", "--dialect", "9P2001"], ""),
    ] {
        if let Some(offers) = offered(typed) {
            assert_eq!(offers, words(told), "{typed:?}");
        }
    }
}

#[test]
fn the_manual_has_this_version() {
    let version = format!("\"sheafsledge {}\"", env!("CARGO_PKG_VERSION"));
    assert!(MANUAL
        .lines()
        .any(|line| line.starts_with(".TH SHEAFSLEDGE 1 ") && line.contains(&version)));
}
