//! A line for each part.

use std::fmt::Display;
use std::io::Write;

use sheafsledge::{Qid, Value};

use crate::dialect::Dialect;
use crate::digits::push;
use crate::list::json::quoted;
use crate::list::{self, numbered, Form};
use crate::recording::Ended;
use crate::terminal::{Paint, Shade};

use super::parts::{Holds, Part, PartForm};

pub struct Lines<D> {
    paint: Paint,
    /// For the last line.
    list: list::Lines<D, false>,
}

impl<D: Dialect> Lines<D> {
    pub fn new(paint: Paint) -> Self {
        let list = list::Lines::new(paint);
        Self { paint, list }
    }
}

impl<D: Dialect> PartForm for Lines<D> {
    type Dialect = D;

    fn begin(&mut self, heading: Option<&str>, text: &mut Vec<u8>) {
        text.extend_from_slice(heading.unwrap_or_default().as_bytes());
        text.extend_from_slice(b"at type field start length value\n");
    }

    fn part(&mut self, part: &Part, text: &mut Vec<u8>) {
        let shade = match part.holds {
            Holds::Header(..) | Holds::Value(_) => None,
            Holds::Tail => Some(Shade::Tail),
            Holds::Refused(_) => Some(Shade::Refused),
        };
        let (begin, end) = match shade {
            Some(shade) => (self.paint.begin(shade), self.paint.end()),
            None => ("", ""),
        };
        text.extend_from_slice(begin.as_bytes());
        push(text, part.at);
        match part.ty {
            Some(ty) => number(text, ty),
            None => text.extend_from_slice(b" -"),
        }
        text.push(b' ');
        text.extend_from_slice(part.name.as_bytes());
        number(text, part.start);
        number(text, part.len);
        holds(part, text);
        text.extend_from_slice(end.as_bytes());
        text.push(b'\n');
    }

    fn end(&mut self, ended: &Ended, frames: u64, text: &mut Vec<u8>) {
        self.list.end(ended, frames, text);
    }
}

/// A gap, and a number after it.
fn number(text: &mut Vec<u8>, n: impl Into<u64>) {
    text.push(b' ');
    push(text, n.into());
}

/// The same of a word.
fn word(text: &mut Vec<u8>, word: impl Display) {
    // Writing into a vector can't fail.
    let _ = write!(text, " {word}");
}

/// Of no names and no qids there is no word.
fn holds(part: &Part, text: &mut Vec<u8>) {
    match part.holds {
        Holds::Header(size, ty, tag) => {
            number(text, size);
            number(text, ty);
            number(text, tag);
        }
        Holds::Tail => word(text, numbered(part.len, "byte")),
        Holds::Refused(refusal) => {
            word(
                text,
                format_args!("{} {}", refusal.number(), refusal.sentence()),
            );
        }
        Holds::Value(value) => said(text, value),
    }
}

fn said(text: &mut Vec<u8>, value: Value) {
    match value {
        Value::Number(n) => number(text, n),
        Value::Text(held) => word(text, quoted(&held)),
        Value::Data(data) => word(text, numbered(data.len() as u64, "byte")),
        Value::Names(names) => names.iter().for_each(|name| word(text, quoted(&name))),
        Value::Qids(qids) => qids.iter().for_each(|qid| dotted(text, qid)),
        Value::Qid(qid) => dotted(text, qid),
        // Its fields in their order.
        Value::Stat(_) | Value::UnixStat(_) => value.parts().for_each(|(_, part)| said(text, part)),
    }
}

fn dotted(text: &mut Vec<u8>, Qid { ty, version, path }: Qid) {
    number(text, ty);
    for n in [u64::from(version), path] {
        text.push(b'.');
        push(text, n);
    }
}
