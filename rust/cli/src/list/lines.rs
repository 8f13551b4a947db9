//! The proved lister's text; with `NAMED`, two columns more.

use std::marker::PhantomData;

use crate::dialect::Dialect;
use crate::digits::{push, put, Rising, LINE};
use crate::recording::{Ended, Row};
use crate::terminal::{Paint, Shade};

use super::form::Form;

/// The answer and the tail of a sound frame, and the line's end.
const SOUND: &[u8; 5] = b" 0 0\n";

pub struct Lines<D, const NAMED: bool> {
    paint: Paint,
    at: Rising,
    dialect: PhantomData<D>,
}

impl<D: Dialect, const NAMED: bool> Lines<D, NAMED> {
    pub fn new(paint: Paint) -> Self {
        let (at, dialect) = (Rising::new(), PhantomData);
        Self { paint, at, dialect }
    }

    /// A line of the lister's six columns, put where it is to stand.
    #[inline(always)]
    pub fn line(&mut self, row: &Row, text: &mut Vec<u8>) {
        let start = text.len();
        text.extend_from_slice(&[0; LINE]);
        let Some(line) = text[start..].first_chunk_mut() else {
            return;
        };
        let mut end = self.at.put(line, row.at);
        for number in [row.size, row.ty as u32, row.tag as u32] {
            line[end] = b' ';
            end = put(line, end + 1, number);
        }
        match (row.refusal, row.tail) {
            (None, 0) => {
                line[end..end + SOUND.len()].copy_from_slice(SOUND);
                end += SOUND.len();
            }
            _ => end = unsound(row, line, end),
        }
        text.truncate(start + end);
    }

    /// The same with names, or with colour.
    fn adorned(&mut self, row: &Row, text: &mut Vec<u8>) {
        self.longer(row, shade(row), text, |text| {
            if NAMED {
                name_it::<D>(row, text);
            }
        });
    }

    /// The same in a colour, and with more columns.
    pub fn longer(
        &mut self,
        row: &Row,
        shade: Option<Shade>,
        text: &mut Vec<u8>,
        more: impl FnOnce(&mut Vec<u8>),
    ) {
        let (begin, end) = match shade {
            Some(shade) => (self.paint.begin(shade), self.paint.end()),
            None => ("", ""),
        };
        text.extend_from_slice(begin.as_bytes());
        self.line(row, text);
        // Its end comes after the columns.
        text.pop();
        more(text);
        text.extend_from_slice(end.as_bytes());
        text.push(b'\n');
    }
}

/// What of a frame is worth a look.
pub fn shade(row: &Row) -> Option<Shade> {
    match row.refusal {
        Some(_) => Some(Shade::Refused),
        None => (row.tail > 0).then_some(Shade::Tail),
    }
}

/// What the message is called, and why it is refused, after the other columns.
pub fn name_it<D: Dialect>(row: &Row, text: &mut Vec<u8>) {
    let name = D::name(row.ty).unwrap_or("?");
    let sentence = row.refusal.map(|refusal| refusal.meaning());
    for word in [Some(name), sentence].into_iter().flatten() {
        text.push(b' ');
        text.extend_from_slice(word.as_bytes());
    }
}

/// The same of another frame; the place after them.
#[inline(never)]
fn unsound(row: &Row, line: &mut [u8; LINE], place: usize) -> usize {
    line[place] = b' ';
    let place = put(line, place + 1, row.answer() as u32);
    line[place] = b' ';
    let place = match row.refusal {
        Some(_) => {
            line[place + 1] = b'-';
            place + 2
        }
        None => put(line, place + 1, row.tail),
    };
    line[place] = b'\n';
    place + 1
}

impl<D: Dialect, const NAMED: bool> Form for Lines<D, NAMED> {
    type Dialect = D;

    fn begin(&mut self, heading: Option<&str>, text: &mut Vec<u8>) {
        text.extend_from_slice(heading.unwrap_or_default().as_bytes());
        text.extend_from_slice(b"at size type tag answer tail");
        text.extend_from_slice(if NAMED { b" name sentence\n" } else { b"\n" });
    }

    #[inline]
    fn row(&mut self, row: &Row, text: &mut Vec<u8>) {
        match NAMED || self.paint.0 {
            true => self.adorned(row, text),
            false => self.line(row, text),
        }
    }

    fn end(&mut self, ended: &Ended, frames: u64, text: &mut Vec<u8>) {
        match *ended {
            Ended::Whole(bytes) => {
                text.extend_from_slice(b"end ");
                push(text, bytes);
                text.push(b' ');
                push(text, frames);
            }
            Ended::Stopped { at, refusal } => {
                text.extend_from_slice(self.paint.begin(Shade::Refused).as_bytes());
                text.extend_from_slice(b"stop ");
                push(text, at);
                text.push(b' ');
                push(text, refusal.number() as u64);
                if NAMED {
                    text.push(b' ');
                    text.extend_from_slice(refusal.meaning().as_bytes());
                }
                text.extend_from_slice(self.paint.end().as_bytes());
            }
        }
        text.push(b'\n');
    }
}
