//! The tables of messages, one for each dialect: messages.txt for 9P2000.L, plain.txt for 9P2000, unix.txt for 9P2000.u.

use std::collections::BTreeMap;

#[derive(Clone, Copy, PartialEq, Eq)]
pub enum Kind {
    Number(u8),
    /// A number of four or two bytes in a tuple struct.
    Fid,
    Gid,
    Tag,
    Qid,
    Str,
    Data,
    Names,
    Qids,
    Stat,
    /// That of 9P2000.u.
    UnixStat,
}

/// Which crates a dialect has, and where the definitions have its tables.
pub struct Dialect {
    /// What the names of its crates begin with, but for those of its records.
    pub prefix: &'static str,
    /// The crates of its own records, and those whose records it has beside them.
    pub own: &'static [&'static str],
    pub shared: &'static [&'static str],
    /// The module that has its tables.
    pub tables: &'static str,
    /// How many values hold any of its requests, and any of its replies, laid flat.
    pub widths: [usize; 2],
    /// The dialect by whose flat crates it reads and writes the rows that it shares with it.
    pub over: Option<&'static Dialect>,
}

pub const L: Dialect = Dialect {
    prefix: "",
    own: &["common", "messages", "metadata"],
    shared: &[],
    tables: "layouts.specs.Tables",
    widths: [10, 22],
    over: None,
};

pub const PLAIN: Dialect = Dialect {
    prefix: "plain_",
    own: &["plain"],
    shared: &["common"],
    tables: "layouts.specs.Plain",
    widths: [23, 22],
    over: None,
};

pub const UNIX: Dialect = Dialect {
    prefix: "unix_",
    own: &["unix"],
    shared: &["common", "messages", "plain"],
    tables: "stats.specs.Unix",
    widths: [23, 22],
    over: Some(&PLAIN),
};

/// Each after those whose records it has.
pub const DIALECTS: [&Dialect; 3] = [&L, &PLAIN, &UNIX];

impl Dialect {
    /// One of its crates, as `plain_requests`.
    pub fn named(&self, krate: &str) -> String {
        format!("{}{krate}", self.prefix)
    }

    /// The crates that have its records.
    pub fn records(&self) -> impl Iterator<Item = &'static str> {
        self.shared.iter().chain(self.own).copied()
    }

    /// The crate that lays a record of a crate flat for this dialect: the first that has it in as much room.
    pub fn flat_of(&self, m: &Message) -> String {
        let room = |d: &Dialect| d.widths[m.direction as usize];
        let has =
            |d: &&&Dialect| room(d) == room(self) && d.records().any(|krate| krate == m.dialect);
        let first = DIALECTS.iter().find(has).map_or(self, |d| *d);
        first.named("flat")
    }

    /// The crate that says how much room its flat values have.
    pub fn room(&self) -> String {
        self.over.unwrap_or(self).named("flat")
    }

    /// Whether the dialect that it stands over has the same row.
    pub fn is_below(&self, m: &Message) -> bool {
        self.over
            .is_some_and(|d| d.records().any(|krate| krate == m.dialect))
    }
}

#[derive(Clone)]
pub struct Field {
    pub name: String,
    pub kind: Kind,
}

#[derive(Clone, Copy, PartialEq, Eq)]
pub enum Direction {
    T,
    R,
}

#[derive(Clone)]
pub struct Message {
    pub dialect: String,
    pub family: String,
    pub number: u8,
    pub direction: Direction,
    pub case: String,
    pub fields: Vec<Field>,
}

pub struct Table {
    pub dialect: Dialect,
    pub messages: Vec<Message>,
    /// The first line of a family's file, by crate and family.
    pub heads: BTreeMap<(String, String), String>,
    /// The cases in the order of the enums.
    pub order: Vec<String>,
    /// The crates whose records it shares, and which of them: all, where none is named.
    shares: Vec<(String, Vec<String>)>,
}

impl Kind {
    fn named(name: &str) -> Option<Self> {
        Some(match name {
            "1" => Kind::Number(1),
            "2" => Kind::Number(2),
            "4" => Kind::Number(4),
            "8" => Kind::Number(8),
            "fid" => Kind::Fid,
            "gid" => Kind::Gid,
            "tag" => Kind::Tag,
            "q" => Kind::Qid,
            "s" => Kind::Str,
            "d" => Kind::Data,
            "names" => Kind::Names,
            "qids" => Kind::Qids,
            "stat" => Kind::Stat,
            "ustat" => Kind::UnixStat,
            _ => return None,
        })
    }

    /// The type of the field in a record.
    pub fn ty(self) -> &'static str {
        match self {
            Kind::Number(1) => "u8",
            Kind::Number(2) => "u16",
            Kind::Number(4) => "u32",
            Kind::Number(_) => "u64",
            Kind::Fid => "Fid",
            Kind::Gid => "Gid",
            Kind::Tag => "Tag",
            Kind::Qid => "Qid",
            Kind::Str | Kind::Data => "Span",
            Kind::Names | Kind::Qids => "Part",
            Kind::Stat => "Stat",
            Kind::UnixStat => "UnixStat",
        }
    }

    /// How many bytes a number has.
    pub fn width(self) -> Option<u8> {
        match self {
            Kind::Number(width) => Some(width),
            Kind::Fid | Kind::Gid => Some(4),
            Kind::Tag => Some(2),
            _ => None,
        }
    }

    /// Whether the number stands in a tuple struct.
    pub fn is_wrapped(self) -> bool {
        matches!(self, Kind::Fid | Kind::Gid | Kind::Tag)
    }

    pub fn is_stat(self) -> bool {
        matches!(self, Kind::Stat | Kind::UnixStat)
    }
}

impl Direction {
    pub fn letter(self) -> char {
        match self {
            Direction::T => 'T',
            Direction::R => 'R',
        }
    }

    pub fn small(self) -> char {
        self.letter().to_ascii_lowercase()
    }

    /// The crate of its enum, which is also what its messages are called.
    pub fn enums(self) -> &'static str {
        match self {
            Direction::T => "requests",
            Direction::R => "replies",
        }
    }

    /// The constant of crates/flat that says how many values hold any body of the direction.
    pub fn width(self) -> String {
        format!("WIDTH_{}", self.letter())
    }
}

impl Message {
    /// The record's name, as `Tversion`.
    pub fn record(&self) -> String {
        format!("{}{}", self.direction.letter(), self.case.to_lowercase())
    }

    /// The same in small letters, as functions and definitions have it.
    pub fn small(&self) -> String {
        self.record().to_lowercase()
    }

    /// The module that has its layout.
    pub fn tables(&self) -> &'static str {
        let has = |d: &&&Dialect| d.own.contains(&self.dialect.as_str());
        DIALECTS.iter().find(has).map_or(L.tables, |d| d.tables)
    }

    /// The layout's name in the definitions, as `layout_tversion`.
    pub fn layout(&self) -> String {
        format!("layout_{}", self.small())
    }

    /// The module that the record stands in, as `common::sessions`.
    pub fn module(&self) -> String {
        format!("{}::{}", self.dialect, self.family)
    }

    pub fn is_empty(&self) -> bool {
        self.fields.is_empty()
    }
}

impl Table {
    /// A dialect's table, with the messages that it shares with others.
    pub fn parsed(dialect: Dialect, text: &str, others: &[&Table]) -> Result<Self, String> {
        let mut table = Table {
            dialect,
            messages: vec![],
            heads: BTreeMap::new(),
            order: vec![],
            shares: vec![],
        };
        for (at, line) in text.lines().enumerate() {
            table
                .take(line)
                .ok_or(format!("line {}: not a row of the table", at + 1))?;
        }
        let mut rows: Vec<Message> = vec![];
        for m in others.iter().flat_map(|other| &other.messages) {
            let is_there = rows.iter().any(|row| row.record() == m.record());
            if table.has_part_in(m) && !is_there {
                rows.push(m.clone());
            }
        }
        table.messages.splice(0..0, rows);
        Ok(table)
    }

    fn has_part_in(&self, m: &Message) -> bool {
        let names = |(krate, records): &(String, Vec<String>)| {
            *krate == m.dialect && (records.is_empty() || records.contains(&m.record()))
        };
        self.shares.iter().any(names)
    }

    fn take(&mut self, line: &str) -> Option<()> {
        let mut words = line.split_whitespace();
        match words.next() {
            None => {}
            Some(word) if word.starts_with('#') => {}
            Some("file") => {
                let key = (words.next()?.to_string(), words.next()?.to_string());
                self.heads.insert(key, words.collect::<Vec<_>>().join(" "));
            }
            Some("order") => self.order.extend(words.map(str::to_string)),
            Some("shares") => {
                let krate = words.next()?.to_string();
                self.shares
                    .push((krate, words.map(str::to_string).collect()));
            }
            Some(dialect) => {
                let family = words.next()?.to_string();
                let number = words.next()?.parse().ok()?;
                let direction = match words.next()? {
                    "T" => Direction::T,
                    "R" => Direction::R,
                    _ => return None,
                };
                let case = words.next()?.to_string();
                let fields = words.map(field).collect::<Option<_>>()?;
                self.messages.push(Message {
                    dialect: dialect.to_string(),
                    family,
                    number,
                    direction,
                    case,
                    fields,
                });
            }
        }
        Some(())
    }

    /// A direction's messages by number, as the matches go.
    pub fn by_number(&self, direction: Direction) -> Vec<&Message> {
        let mut rows: Vec<_> = self
            .messages
            .iter()
            .filter(|m| m.direction == direction)
            .collect();
        rows.sort_by_key(|m| m.number);
        rows
    }

    /// A direction's messages in the order of the enums.
    pub fn by_case(&self, direction: Direction) -> Vec<&Message> {
        let rows = self.by_number(direction);
        self.order
            .iter()
            .filter_map(|case| rows.iter().find(|m| m.case == *case).copied())
            .collect()
    }

    /// The families of a crate, in the table's order.
    pub fn families(&self, is_in: impl Fn(&Message) -> bool) -> Vec<String> {
        let mut families: Vec<String> = vec![];
        for message in self.messages.iter().filter(|m| is_in(m)) {
            if !families.contains(&message.family) {
                families.push(message.family.clone());
            }
        }
        families
    }
}

fn field(word: &str) -> Option<Field> {
    let (name, kind) = word.split_once(':')?;
    Some(Field {
        name: name.to_string(),
        kind: Kind::named(kind)?,
    })
}
