//! The rows of the crate in Rust, and of the module that stands in for the seller's.

use crate::table::{Direction, Field, Kind, Message, Table};
use crate::Files;

/// A row that is longer is broken.
const WIDTH: usize = 100;

/// Whose records they are: the crate's, which borrow and know their numbers, or the seller's.
#[derive(Clone, Copy, PartialEq, Eq)]
enum Rows {
    Ours,
    Sellers,
}

pub fn write(l: &Table, others: &[&Table], files: &mut Files) {
    for (rows, file) in [
        (Rows::Ours, "rust/src/rows.rs"),
        (Rows::Sellers, "rust/examples/swap/protocol/rows.rs"),
    ] {
        files.put(file.to_string(), rows.all(l));
    }
    for table in others {
        let module = table.dialect.prefix.trim_end_matches('_');
        files.put(format!("rust/src/{module}/rows.rs"), Rows::Ours.all(table));
    }
}

impl Rows {
    fn all(self, table: &Table) -> String {
        let mut text = "// Which record each type has, and which have none.\n".to_string();
        if self == Rows::Ours {
            let own = |m: &&Message| table.dialect.own.contains(&m.dialect.as_str());
            for direction in [Direction::T, Direction::R] {
                let rows = table.by_number(direction);
                let records = rows.into_iter().filter(own).filter(|m| !m.is_empty());
                text += "\nrecords! {\n";
                text += &records.map(|m| self.record(m)).collect::<String>();
                text += "}\n";
            }
        }
        for (direction, doc) in [(Direction::T, "A request."), (Direction::R, "A reply.")] {
            text += &format!(
                "\nmessage! {{\n    /// {doc}\n    {}message\n",
                direction.letter()
            );
            let messages = table.by_number(direction);
            let (empty, full): (Vec<_>, Vec<_>) = messages.into_iter().partition(|m| m.is_empty());
            text += &match self {
                Rows::Ours => full.iter().map(|m| case(m)).collect::<String>(),
                Rows::Sellers => full.iter().map(|m| self.row(m)).collect(),
            };
            text += "    empty:\n";
            text += &empty
                .iter()
                .map(|m| format!("    {} {}: {}\n", m.number, m.case, m.record()))
                .collect::<String>();
            text += "}\n";
        }
        text
    }

    fn ty(self, kind: Kind) -> &'static str {
        match (self, kind) {
            (Rows::Ours, Kind::Str) => "Text<'a>",
            (Rows::Ours, Kind::Data) => "Data<'a>",
            (Rows::Ours, Kind::Names) => "Names<'a>",
            (Rows::Ours, Kind::Qids) => "Qids<'a>",
            (_, Kind::Stat | Kind::UnixStat) => "Stat<'a>",
            (Rows::Sellers, Kind::Fid | Kind::Gid) => "u32",
            (Rows::Sellers, Kind::Tag) => "u16",
            (Rows::Sellers, Kind::Str) => "P9String",
            (Rows::Sellers, Kind::Data) => "Data",
            (Rows::Sellers, Kind::Names) => "Vec<P9String>",
            (Rows::Sellers, Kind::Qids) => "Vec<Qid>",
            (_, kind) => kind.ty(),
        }
    }

    /// A row of the seller's: the number, the case, and the record as it stands there.
    fn row(self, m: &Message) -> String {
        let head = format!(
            "    {} {}: {}{} {{",
            m.number,
            m.case,
            m.record(),
            lifetime(m)
        );
        self.held(m, head)
    }

    /// A record of ours by itself.
    fn record(self, m: &Message) -> String {
        self.held(m, format!("    {}{} {{", m.record(), lifetime(m)))
    }

    /// The fields of a record, after its head.
    fn held(self, m: &Message, head: String) -> String {
        // `gen` is a word of Rattle's, and none of Rust's before its edition of 2024.
        let name = |name: &str| {
            if name == "gen_" {
                "gen".to_string()
            } else {
                name.to_string()
            }
        };
        let fields: Vec<String> = m
            .fields
            .iter()
            .map(|f| format!("{}: {},", name(&f.name), self.ty(f.kind)))
            .collect();
        let line = format!("{head} {} }}\n", fields.join(" "));
        if line.trim_end().len() <= WIDTH {
            return line;
        }
        let mut text = format!("{head}\n       ");
        let mut at = 7;
        for field in fields {
            if at + 1 + field.len() > WIDTH {
                text += "\n       ";
                at = 7;
            }
            text += &format!(" {field}");
            at += 1 + field.len();
        }
        text + "\n    }\n"
    }
}

/// The lifetime of a record that borrows.
fn lifetime(m: &Message) -> &'static str {
    let borrows = |f: &Field| Rows::Ours.ty(f.kind).contains("'a");
    match m.fields.iter().any(borrows) {
        true => "<'a>",
        false => "",
    }
}

/// A case of ours, which holds a record that is declared apart.
fn case(m: &Message) -> String {
    format!(
        "    {} {}: {}{}\n",
        m.number,
        m.case,
        m.record(),
        lifetime(m)
    )
}
