//! The kinds of cases that are asked about, and how each is made.

use judge::cases::{damaged, drawn, DIRECTIONS};
use judge::Direction;
use p9::draw::Draws;

use crate::frames::{bordered, cuts, of_no_type, short, sizes, tailed, type_in_turn};
use crate::limits::limit;
use crate::others::{blocks, entries, joined, near_a_walk, text, values, walk};
use crate::rows::ROWS;

#[derive(Clone, Copy)]
pub enum Kind {
    Short,
    Size,
    Fields,
    Cut,
    Border,
    Damage,
    Tail,
    Unknown,
    Limit,
    Write,
    Dirent,
    Block,
    Element,
    Table,
    Stretch,
    Text,
    Raw,
    Rows,
}

/// Each kind's name, and how many of ten thousand cases it has. Those of `limit` are long, and
/// `rows` has one for each row.
pub const KINDS: [(Kind, &str, u64); 18] = [
    (Kind::Short, "short", 1000),
    (Kind::Size, "size", 1000),
    (Kind::Fields, "fields", 1500),
    (Kind::Cut, "cut", 1500),
    (Kind::Border, "border", 900),
    (Kind::Damage, "damage", 1295),
    (Kind::Tail, "tail", 400),
    (Kind::Unknown, "unknown", 400),
    (Kind::Limit, "limit", 5),
    (Kind::Write, "write", 800),
    (Kind::Dirent, "dirent", 400),
    (Kind::Block, "block", 100),
    (Kind::Element, "element", 100),
    (Kind::Table, "table", 100),
    (Kind::Stretch, "stretch", 100),
    (Kind::Text, "text", 200),
    (Kind::Raw, "raw", 200),
    (Kind::Rows, "rows", 0),
];

/// What is asked of some bytes.
#[derive(Clone, Copy, Debug, PartialEq, Eq)]
pub enum Of {
    /// A frame to read.
    Read(Direction),
    /// What a frame of the seller's holds, to write.
    Written(Direction),
    /// The same, of a frame with data that may be too long to be read again.
    Data(Direction),
    /// A directory entry at a place.
    Entry(usize),
    /// A directory block.
    Block,
    /// The elements of a walk, by their numbers.
    Elements(Direction),
    /// A walk, to write from a table.
    Table(Direction),
    Stretch,
    /// Whether the bytes are UTF-8.
    Text,
    /// A flat record of any values, to write.
    Raw(Direction),
    /// Whatever the seller reads there, written again in every way.
    Again(Direction),
    /// A walk of more than sixteen elements, to write in every way.
    Over(Direction),
    /// A row of docs/DIFFERENCES.md.
    Row(u8),
}

impl Of {
    /// That of the frame, where one frame is asked about.
    pub fn direction(self) -> Option<Direction> {
        match self {
            Self::Read(direction)
            | Self::Written(direction)
            | Self::Data(direction)
            | Self::Elements(direction)
            | Self::Table(direction)
            | Self::Over(direction) => Some(direction),
            _ => None,
        }
    }
}

/// What an input of `compare/fuzz` asks of its other bytes by its first one.
pub fn chosen(first: u8) -> Of {
    match first % 9 {
        0 => Of::Read(Direction::T),
        1 => Of::Read(Direction::R),
        2 => Of::Again(Direction::T),
        3 => Of::Again(Direction::R),
        4 => Of::Raw(Direction::T),
        5 => Of::Raw(Direction::R),
        6 => Of::Entry(usize::from(first / 9)),
        7 => Of::Stretch,
        _ => Of::Text,
    }
}

pub struct Asked {
    pub of: Of,
    pub bytes: Vec<u8>,
}

/// What is asked at a turn: several cases, where one is cut or sized in several ways.
pub fn asked(kind: Kind, turn: usize, draws: &mut Draws) -> Vec<Asked> {
    let (direction, place) = type_in_turn(turn);
    let all = |of: Of, inputs: Vec<Vec<u8>>| {
        let asked = inputs.into_iter().map(|bytes| Asked { of, bytes });
        asked.collect::<Vec<_>>()
    };
    let read = Of::Read(direction);
    match kind {
        Kind::Short => DIRECTIONS
            .iter()
            .flat_map(|direction| all(Of::Read(*direction), vec![short(turn)]))
            .collect(),
        Kind::Size => all(read, sizes(drawn(direction, place, draws))),
        Kind::Fields => all(read, vec![drawn(direction, place, draws)]),
        Kind::Cut => all(read, cuts(direction, place, draws)),
        Kind::Border => all(read, bordered(direction, &drawn(direction, place, draws))),
        Kind::Damage => all(read, vec![damaged(drawn(direction, place, draws), draws)]),
        Kind::Tail => all(read, vec![tailed(drawn(direction, place, draws), draws)]),
        Kind::Unknown => {
            let (direction, frame) = of_no_type(turn, draws);
            all(Of::Read(direction), vec![frame])
        }
        Kind::Limit => limit(turn, draws),
        Kind::Write => all(Of::Written(direction), vec![drawn(direction, place, draws)]),
        Kind::Dirent => entries(turn, draws),
        Kind::Block => all(Of::Block, blocks(turn, draws)),
        Kind::Element => walk(Of::Elements, turn, draws),
        Kind::Table => walk(Of::Table, turn, draws),
        Kind::Stretch => all(Of::Stretch, vec![joined(draws)]),
        Kind::Text => all(Of::Text, vec![text(draws)]),
        // Every other one is of the two types with a part.
        Kind::Raw if turn.is_multiple_of(2) => {
            all(Of::Raw(direction), vec![near_a_walk(direction, draws)])
        }
        Kind::Raw => all(Of::Raw(direction), vec![values(direction, place, draws)]),
        Kind::Rows => all(Of::Row(ROWS[turn % ROWS.len()]), vec![Vec::new()]),
    }
}
