//! A line for each entry.

use sheafsledge::{Body, Dirent, Dirents, Listed, Rmessage};

use crate::dialect::L;
use crate::digits::push;
use crate::list::{self, Form, Summary};
use crate::quotes::quoted;
use crate::recording::{Ended, Row};
use crate::terminal::{Paint, Shade};

/// The type of an Rreaddir.
const RREADDIR: u8 = 41;

/// What the entries of all blocks come to.
#[derive(Clone, Copy, Debug, Default, PartialEq, Eq)]
pub struct Counted {
    pub entries: u64,
    /// Blocks that stop at an entry.
    pub stops: u64,
}

pub struct Lines {
    paint: Paint,
    counted: Counted,
    /// For the last line.
    list: list::Lines<L, false>,
}

impl Lines {
    pub fn new(paint: Paint) -> Self {
        Self {
            paint,
            counted: Counted::default(),
            list: list::Lines::new(paint),
        }
    }
}

impl Form for Lines {
    type Dialect = L;

    fn begin(&mut self, heading: Option<&str>, text: &mut Vec<u8>) {
        begin(heading, text);
    }

    fn row(&mut self, _: &Row, _: &mut Vec<u8>) {}

    fn body<'a>(&mut self, row: &Row, frame: impl FnOnce() -> Listed<'a>, text: &mut Vec<u8>) {
        if row.ty != RREADDIR || row.refusal.is_some() {
            return;
        }
        if let Body::Reply(Ok(Rmessage::Readdir(reply))) = frame().body {
            text.extend_from_slice(b"frame ");
            push(text, row.at);
            text.push(b'\n');
            block(&reply.data, self.paint, &mut self.counted, text);
        }
    }

    fn end(&mut self, ended: &Ended, frames: u64, text: &mut Vec<u8>) {
        self.list.end(ended, frames, text);
    }

    fn summed(&self, summary: &mut Summary) {
        summary.entries(self.counted.entries, self.counted.stops);
    }
}

/// The names of the columns.
pub fn begin(heading: Option<&str>, text: &mut Vec<u8>) {
    text.extend_from_slice(heading.unwrap_or_default().as_bytes());
    text.extend_from_slice(b"at ty version path offset type name\n");
}

/// A line for each entry of a block, and one that says how it ends.
pub fn block(bytes: &[u8], paint: Paint, counted: &mut Counted, text: &mut Vec<u8>) {
    let mut entries = Dirents::new(bytes);
    let mut count = 0;
    loop {
        let at = entries.position() as u64;
        match entries.next() {
            Some(Ok(entry)) => {
                line(at, &entry, text);
                count += 1;
            }
            Some(Err(refusal)) => {
                text.extend_from_slice(paint.begin(Shade::Refused).as_bytes());
                last("stop", at, refusal.number().into(), text);
                text.extend_from_slice(paint.end().as_bytes());
                counted.stops += 1;
                break;
            }
            None => {
                last("end", at, count, text);
                break;
            }
        }
    }
    text.push(b'\n');
    counted.entries += count;
}

fn last(word: &str, at: u64, n: u64, text: &mut Vec<u8>) {
    text.extend_from_slice(word.as_bytes());
    text.push(b' ');
    push(text, at);
    text.push(b' ');
    push(text, n);
}

fn line(at: u64, entry: &Dirent, text: &mut Vec<u8>) {
    let Dirent {
        qid,
        offset,
        ty,
        name,
    } = entry;
    for n in [
        at,
        qid.ty.into(),
        qid.version.into(),
        qid.path,
        *offset,
        (*ty).into(),
    ] {
        push(text, n);
        text.push(b' ');
    }
    quoted(name.as_bytes(), text);
    text.push(b'\n');
}
