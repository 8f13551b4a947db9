//! A listing whose lines wait until it is known what belongs to them.

use std::collections::{HashMap, VecDeque};

use sheafsledge::{Mark, Tag};

use crate::dialect::Dialect;
use crate::digits::push;
use crate::list::{shade, Form, Lines, Summary};
use crate::recording::{Ended, Row};
use crate::terminal::{Paint, Shade};

/// What belongs to a frame.
#[derive(Clone, Copy, Debug, PartialEq, Eq)]
enum Other {
    At(u64),
    Stray,
    Open,
    /// A request that may still be answered.
    Unknown,
}

pub struct Paired<D> {
    lines: Lines<D, false>,
    /// The rows from the first request on that is not answered yet: a line says what comes later.
    held: VecDeque<(Row, Other)>,
    /// How many rows were written, and so the number of the first that is held.
    written: u64,
    /// The requests of a tag that no reply has answered: for each type their numbers, which rise. So
    /// that a reply is held to each type once, however many are open.
    open: HashMap<u16, Vec<(u8, Vec<u64>)>>,
    strays: u64,
    left_open: u64,
}

impl<D: Dialect> Paired<D> {
    pub fn new(paint: Paint) -> Self {
        Self {
            lines: Lines::new(paint),
            held: VecDeque::new(),
            written: 0,
            open: HashMap::new(),
            strays: 0,
            left_open: 0,
        }
    }

    /// What is known of a frame when it comes. The request that a reply answers knows of it then.
    fn other(&mut self, row: &Row) -> Other {
        if row.ty % 2 == 0 {
            return self.request(row);
        }
        let Some(number) = self.answered(row) else {
            return Other::Stray;
        };
        let (request, other) = &mut self.held[(number - self.written) as usize];
        *other = Other::At(row.at);
        Other::At(request.at)
    }

    /// The number of the latest request that a reply answers, which is answered then.
    fn answered(&mut self, row: &Row) -> Option<u64> {
        let open = self.open.get_mut(&row.tag)?.iter_mut();
        let can = open.filter(|(ty, _)| D::answers(mark(*ty, row.tag), mark(row.ty, row.tag)));
        let (_, numbers) = can.max_by_key(|(_, numbers)| numbers.last().copied())?;
        numbers.pop()
    }

    /// No reply answers a request of no known type, so that nothing has to wait for it.
    fn request(&mut self, row: &Row) -> Other {
        if D::name(row.ty).is_none() {
            return Other::Open;
        }
        let number = self.written + self.held.len() as u64;
        let types = self.open.entry(row.tag).or_default();
        match types.iter_mut().find(|(ty, _)| *ty == row.ty) {
            Some((_, numbers)) => numbers.push(number),
            None => types.push((row.ty, vec![number])),
        }
        Other::Unknown
    }

    /// Writes the lines of which all is known.
    fn settle(&mut self, text: &mut Vec<u8>) {
        while let Some((row, other)) = self.held.front().copied() {
            if other == Other::Unknown {
                return;
            }
            self.held.pop_front();
            self.written += 1;
            self.line(&row, other, text);
        }
    }

    fn line(&mut self, row: &Row, other: Other, text: &mut Vec<u8>) {
        let shade = match other {
            Other::Stray | Other::Open => Some(Shade::Refused),
            _ => shade(row),
        };
        self.lines.longer(row, shade, text, |text| {
            text.push(b' ');
            match other {
                Other::At(at) => push(text, at),
                Other::Stray => text.extend_from_slice(b"stray"),
                Other::Open | Other::Unknown => text.extend_from_slice(b"open"),
            }
        });
    }
}

fn mark(ty: u8, tag: u16) -> Mark {
    let tag = Tag(tag);
    Mark { ty, tag }
}

impl<D: Dialect> Form for Paired<D> {
    type Dialect = D;

    fn begin(&mut self, heading: Option<&str>, text: &mut Vec<u8>) {
        self.lines.begin(heading, text);
        text.pop();
        text.extend_from_slice(b" pair\n");
    }

    fn row(&mut self, row: &Row, text: &mut Vec<u8>) {
        let other = self.other(row);
        self.strays += u64::from(other == Other::Stray);
        self.left_open += u64::from(other == Other::Open);
        self.held.push_back((*row, other));
        self.settle(text);
    }

    fn end(&mut self, ended: &Ended, frames: u64, text: &mut Vec<u8>) {
        for (_, other) in &mut self.held {
            if *other == Other::Unknown {
                *other = Other::Open;
                self.left_open += 1;
            }
        }
        self.settle(text);
        self.lines.end(ended, frames, text);
    }

    fn summed(&self, summary: &mut Summary) {
        summary.pairs(self.strays, self.left_open);
    }
}
