//! The crates that are the same for every dialect but for its words: frames, stretches and what Rust calls. They are written by hand for
//! 9P2000.L, and for another dialect from that text.

use crate::table::{Dialect, Table, L};
use crate::Files;
use std::fs;
use std::path::Path;

/// 9P2000.L's crates that another dialect has, too, each under its own prefix.
const NAMED: [&str; 6] = [
    "requests",
    "replies",
    "frames",
    "stretch",
    "flat_requests",
    "flat_replies",
];

pub fn write(root: &Path, table: &Table, files: &mut Files) -> Result<(), String> {
    let lines = include_str!("derived.txt").lines();
    for line in lines.filter(|line| !line.starts_with('#')) {
        let (from, to) = line.split_once(' ').unwrap_or((line, line));
        let text = fs::read_to_string(root.join("crates").join(from))
            .map_err(|why| format!("crates/{from}: {why}"))?;
        files.derive(
            format!(
                "crates/{}",
                table.dialect.named(&to.replace('@', table.dialect.prefix))
            ),
            &format!("crates/{from}"),
            said(&table.dialect, &text),
        );
    }
    Ok(())
}

/// The text in the words of the dialect.
fn said(dialect: &Dialect, text: &str) -> String {
    let mut text = text.replace("sheafsledge_", &format!("sheafsledge_{}", dialect.prefix));
    text = text.replace(
        "sheafsledge-",
        &format!("sheafsledge-{}", dialect.prefix.replace('_', "-")),
    );
    // What Rust calls of a dialect stands in one crate.
    for krate in ["request_exports", "reply_exports", "stretch_exports"] {
        text = text.replace(
            &format!("Rattle.{krate}."),
            &format!("Rattle.{}.", dialect.named("exports")),
        );
    }
    for krate in NAMED {
        text = renamed(&text, dialect, krate);
    }
    text.split_inclusive('\n')
        .map(|line| tables(dialect, line))
        .collect()
}

/// A crate's name, where it stands for the crate: after `Rattle.`, or before `::`.
fn renamed(text: &str, dialect: &Dialect, krate: &str) -> String {
    let name = dialect.named(krate);
    let mut text = text.to_string();
    text = text.replace(&format!("Rattle.{krate}."), &format!("Rattle.{name}."));
    for before in [" ", "(", "`"] {
        text = text.replace(&format!("{before}{krate}::"), &format!("{before}{name}::"));
    }
    text
}

/// A `use` line of the tables: what is a dialect's own comes from its module.
fn tables(dialect: &Dialect, line: &str) -> String {
    let parts = line.split_once("use Rattle.layouts.specs.Tables.{");
    let Some((before, (names, end))) = parts.and_then(|(b, rest)| Some((b, rest.split_once('}')?)))
    else {
        return line.to_string();
    };
    let (own, shared): (Vec<&str>, Vec<&str>) = names
        .split(", ")
        .partition(|name| name.starts_with("table"));
    let mut text = String::new();
    for (module, names) in [(L.tables, shared), (dialect.tables, own)] {
        if !names.is_empty() {
            text += &format!("{before}use Rattle.{module}.{{{}}}{end}", names.join(", "));
        }
    }
    text
}
