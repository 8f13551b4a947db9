//! A recording in parts: each byte of it belongs to one.

use std::io;
use std::ops::Range;

use sheafsledge::any::Listed;
use sheafsledge::{FieldAt, Refusal, Value};

use crate::dialect::Dialect;
use crate::list::{BodyOf, Form};
use crate::recording::{Ended, Row};

/// Bytes that belong together.
pub struct Part<'a> {
    /// The position and the type of the frame; no type where there is none.
    pub at: u64,
    pub ty: Option<u8>,
    pub name: &'static str,
    pub start: u64,
    pub len: u64,
    pub holds: Holds<'a>,
}

pub enum Holds<'a> {
    /// A size, a type and a tag.
    Header(u32, u8, u16),
    Value(Value<'a>),
    /// What nobody asks for.
    Tail,
    Refused(Refusal),
}

/// A way to write the parts, and what stands around them.
pub trait PartForm {
    type Dialect: Dialect;
    fn begin(&mut self, heading: Option<&str>, text: &mut Vec<u8>);
    fn part(&mut self, part: &Part, text: &mut Vec<u8>);
    fn end(&mut self, ended: &Ended, frames: u64, text: &mut Vec<u8>);
}

/// A listing of parts.
pub struct Parted<F>(pub F);

impl<F: PartForm> Form for Parted<F> {
    type Dialect = F::Dialect;

    fn begin(&mut self, heading: Option<&str>, text: &mut Vec<u8>) {
        self.0.begin(heading, text);
    }

    fn row(&mut self, _: &Row, _: &mut Vec<u8>) {}

    fn body<'a>(
        &mut self,
        row: &Row,
        frame: impl FnOnce() -> Listed<BodyOf<'a, Self>>,
        text: &mut Vec<u8>,
    ) {
        let frame = frame();
        let mut part = |name, range, holds| self.0.part(&of_a_frame(row, name, range, holds), text);
        let header = frame.header_range();
        let body = header.end..frame.next;
        part("header", header, Holds::Header(row.size, row.ty, row.tag));
        if let Some(refusal) = row.refusal {
            return part("refused", body, Holds::Refused(refusal));
        }
        for FieldAt { name, range, value } in frame.fields() {
            part(name, range, Holds::Value(value));
        }
        if frame.tail > 0 {
            part("tail", frame.tail_range(), Holds::Tail);
        }
    }

    fn rest(
        &mut self,
        ended: &Ended,
        bytes: impl FnOnce() -> io::Result<u64>,
        text: &mut Vec<u8>,
    ) -> io::Result<()> {
        if let Ended::Stopped { at, refusal } = *ended {
            let rest = Part {
                at,
                ty: None,
                name: "rest",
                start: at,
                // A file that is cut meanwhile has none.
                len: bytes()?.saturating_sub(at),
                holds: Holds::Refused(refusal),
            };
            self.0.part(&rest, text);
        }
        Ok(())
    }

    fn end(&mut self, ended: &Ended, frames: u64, text: &mut Vec<u8>) {
        self.0.end(ended, frames, text);
    }
}

/// A range of a frame that was read alone.
fn of_a_frame<'a>(
    row: &Row,
    name: &'static str,
    range: Range<usize>,
    holds: Holds<'a>,
) -> Part<'a> {
    Part {
        at: row.at,
        ty: Some(row.ty),
        name,
        start: row.at + range.start as u64,
        len: range.len() as u64,
        holds,
    }
}
