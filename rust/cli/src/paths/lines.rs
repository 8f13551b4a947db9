//! A line for each frame.

use std::io;

use sheafsledge::session::{Recording, Step, Steps};
use sheafsledge::{Fid, Refusal};

use crate::dialect::L;
use crate::digits::push;
use crate::list::{self, shade, Form, Listing};
use crate::quotes::quoted;
use crate::recording::{Ended, Row};
use crate::terminal::Paint;

/// Room for most paths; where it is too little it is made more.
const ROOM: usize = 4096;

pub struct Lines<'a> {
    list: list::Lines<L, false>,
    steps: Steps<'a>,
    bytes: usize,
    /// Where a path is written.
    room: Vec<u8>,
}

impl<'a> Lines<'a> {
    pub fn of(recording: Recording<'a>, paint: Paint) -> Self {
        Self {
            list: list::Lines::new(paint),
            steps: recording.steps(),
            bytes: recording.stretch().len(),
            room: vec![0; ROOM],
        }
    }

    /// The header, the frames and the last line.
    pub fn write(mut self, listing: &mut Listing) -> io::Result<()> {
        let text = listing.output.text();
        self.list.begin(None, text);
        text.pop();
        text.extend_from_slice(b" fid path\n");
        let mut frames = 0;
        let mut ended = Ended::Whole(self.bytes as u64);
        while let Some(step) = self.steps.next() {
            match step {
                Ok(step) => {
                    let row = row(&step);
                    listing.summary.row(&row);
                    self.line(&row, step.fid, listing.output.text());
                    frames += 1;
                }
                // What is sealed never stops; if it did, that would be told.
                Err(stop) => {
                    let (at, refusal) = (stop.at as u64, stop.refusal);
                    ended = Ended::Stopped { at, refusal };
                }
            }
            listing.output.settle()?;
        }
        listing.summary.ended(&ended);
        self.list.end(&ended, frames, listing.output.text());
        Ok(())
    }

    fn line(&mut self, row: &Row, fid: Option<Fid>, text: &mut Vec<u8>) {
        let Self {
            list, steps, room, ..
        } = self;
        list.longer(row, shade(row), text, |text| match fid {
            Some(fid) => {
                text.push(b' ');
                push(text, fid.0.into());
                text.push(b' ');
                match path(steps, fid, room) {
                    Some(path) => quoted(path, text),
                    None => text.push(b'-'),
                }
            }
            None => text.extend_from_slice(b" - -"),
        });
    }
}

/// Where a fid is after the frames that were followed; none if it is unknown.
fn path<'r>(steps: &Steps, fid: Fid, room: &'r mut Vec<u8>) -> Option<&'r [u8]> {
    let len = loop {
        match steps.path(fid, room).map(<[u8]>::len) {
            Err(Refusal::NoRoom) => room.resize(2 * room.len(), 0),
            told => break told.ok()?,
        }
    };
    Some(&room[..len])
}

/// A frame as a listing has it, answered by the session.
fn row(step: &Step) -> Row {
    Row {
        at: step.at as u64,
        size: step.size as u32,
        ty: step.ty,
        tag: step.tag.0,
        refusal: step.refusal,
        tail: step.tail as u32,
    }
}

/// The last line alone.
pub fn last(ended: &Ended, frames: u64, paint: Paint, text: &mut Vec<u8>) {
    list::Lines::<L, false>::new(paint).end(ended, frames, text);
}
