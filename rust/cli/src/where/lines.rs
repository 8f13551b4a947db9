//! A line for each string that breaks; with `NAMED`, two columns more.

use crate::dialect::Dialect;
use crate::digits::push;
use crate::list::{self, name_it, Form, Summary};
use crate::recording::{Broken, Ended, Row};
use crate::terminal::{Paint, Shade};

use super::hex;

pub struct Lines<D, const NAMED: bool> {
    paint: Paint,
    /// For the last line.
    list: list::Lines<D, NAMED>,
    broken: u64,
}

impl<D: Dialect, const NAMED: bool> Lines<D, NAMED> {
    pub fn new(paint: Paint) -> Self {
        let (list, broken) = (list::Lines::new(paint), 0);
        Self {
            paint,
            list,
            broken,
        }
    }

    /// `.. 02 00 [c0] 80`, the byte in colour.
    fn bytes(&self, broken: &Broken, text: &mut Vec<u8>) {
        if broken.goes_back {
            text.extend_from_slice(b".. ");
        }
        hex(text, broken.before());
        // No string starts at a frame's first byte.
        text.push(b' ');
        text.extend_from_slice(self.paint.begin(Shade::Refused).as_bytes());
        text.push(b'[');
        hex(text, &[broken.byte()]);
        text.push(b']');
        text.extend_from_slice(self.paint.end().as_bytes());
        if !broken.after().is_empty() {
            text.push(b' ');
            hex(text, broken.after());
        }
        if broken.goes_on {
            text.extend_from_slice(b" ..");
        }
    }
}

impl<D: Dialect, const NAMED: bool> Form for Lines<D, NAMED> {
    type Dialect = D;

    fn begin(&mut self, heading: Option<&str>, text: &mut Vec<u8>) {
        text.extend_from_slice(heading.unwrap_or_default().as_bytes());
        text.extend_from_slice(b"at answer place bytes");
        text.extend_from_slice(if NAMED { b" name sentence\n" } else { b"\n" });
    }

    fn row(&mut self, row: &Row, _: &mut Vec<u8>) {
        self.broken += u64::from(row.breaks());
    }

    fn broken(&mut self, broken: &Broken, text: &mut Vec<u8>) {
        let row = &broken.row;
        for n in [row.at, u64::from(row.answer()), broken.place] {
            push(text, n);
            text.push(b' ');
        }
        self.bytes(broken, text);
        if NAMED {
            name_it::<D>(row, text);
        }
        text.push(b'\n');
    }

    fn end(&mut self, ended: &Ended, frames: u64, text: &mut Vec<u8>) {
        self.list.end(ended, frames, text);
    }

    fn summed(&self, summary: &mut Summary) {
        summary.broken(self.broken);
    }
}
