//! The frames of a recording of any length, piece by piece.
//!
//! A piece is cut and read by the crate's `stretch` of the dialect; a frame that a piece ends in is kept for the
//! next one. A frame that is longer than a piece is never held whole: what its fields need of it is,
//! and the rest is passed over.

mod broken;
#[cfg(test)]
mod tests;

use std::io::{self, ErrorKind, Read};
use std::marker::PhantomData;
use std::ops::Range;

use sheafsledge::any::{Held, Listed};
use sheafsledge::{Refusal, Stop};

use crate::dialect::Dialect;

pub use broken::Broken;

/// How much is read at once. Frames of data often hold a power of two of it and a header, so there is
/// a little more room than such a power: else a piece would end shortly before a frame does, and most
/// of it would be moved.
pub const PIECE: usize = (1 << 20) + (1 << 16);

/// How many frames are told of at once, so that their rows stay in a fast cache.
const ROWS: usize = 512;

/// A frame's first bytes: its size, its type and its tag.
const HEADER: usize = 7;

/// The most that the fields of a message are, with the header: those of a Twrite whose data is as
/// long as data may be.
const FIELDS: usize = 33_554_432 + 23;

pub trait Source: Read {
    /// Passes over so many bytes; whether so many were there.
    fn pass(&mut self, count: u64) -> io::Result<bool>;
    /// Passes over all that is left, and says how many bytes there were from the start on.
    fn end(&mut self) -> io::Result<u64>;
}

impl<S: Source> Source for &mut S {
    fn pass(&mut self, count: u64) -> io::Result<bool> {
        (**self).pass(count)
    }

    fn end(&mut self) -> io::Result<u64> {
        (**self).end()
    }
}

/// A frame's place and what is answered for it.
#[derive(Clone, Copy, Debug, PartialEq, Eq)]
pub struct Row {
    pub at: u64,
    pub size: u32,
    pub ty: u8,
    pub tag: u16,
    /// If it tells of a byte, that counts as the frame's position does.
    pub refusal: Option<Refusal>,
    /// 0 where it is refused.
    pub tail: u32,
}

impl Row {
    /// Of a frame in a piece that starts there. What of the body nobody asks for is not made, as
    /// long as this is inlined.
    #[inline(always)]
    fn of<'a>(start: u64, frame: &Listed<impl Held<'a>>) -> Self {
        Self {
            at: start + frame.at as u64,
            size: frame.size as u32,
            ty: frame.ty,
            tag: frame.tag.0,
            refusal: frame
                .body
                .refusal()
                .map(|refusal| counted_on(start, refusal)),
            tail: frame.tail as u32,
        }
    }

    /// 0, or the refusal's number.
    #[inline]
    pub fn answer(&self) -> u8 {
        self.refusal.map_or(0, Refusal::number)
    }

    /// Whether it is refused for a string, and so with a place.
    #[inline]
    pub fn breaks(&self) -> bool {
        self.place().is_some()
    }

    /// Where in the frame that is.
    fn place(&self) -> Option<usize> {
        let place = self.refusal.and_then(Refusal::at)?;
        place.checked_sub(self.at as usize)
    }
}

/// How a recording ended.
#[derive(Clone, Copy, Debug, PartialEq, Eq)]
pub enum Ended {
    /// After so many bytes, which are frames.
    Whole(u64),
    /// At a position that is no frame's.
    Stopped { at: u64, refusal: Refusal },
}

/// One in a dialect.
pub struct Recording<S, D> {
    source: S,
    /// How long a piece is.
    piece: usize,
    /// A piece, or more while a longer frame is looked at.
    buffer: Vec<u8>,
    /// Which bytes of the buffer are the recording's, and not in a row yet.
    left: Range<usize>,
    /// Where the first of these stands in the recording.
    start: u64,
    rows: Vec<Row>,
    broken: Vec<Broken>,
    dialect: PhantomData<D>,
}

impl<S: Source, D: Dialect> Recording<S, D> {
    /// A header has to fit into a piece, so a shorter one is made as long.
    pub fn new(source: S, piece: usize) -> Self {
        let piece = piece.max(HEADER);
        Self {
            source,
            piece,
            buffer: vec![0; piece],
            left: 0..0,
            start: 0,
            rows: Vec::with_capacity(ROWS),
            broken: Vec::new(),
            dialect: PhantomData,
        }
    }

    /// The frames that the last call came to.
    pub fn rows(&self) -> &[Row] {
        &self.rows
    }

    /// Those of them with a string that breaks, in their order.
    pub fn broken(&self) -> &[Broken] {
        &self.broken
    }

    /// What one of the rows holds, read once more, as a stretch of its own: a listing without bodies
    /// does not wait for them.
    pub fn frame(&self, row: &Row) -> Listed<D::Body<'_>> {
        let size = row.size as usize;
        let bytes = match size > self.piece {
            true => &self.buffer,
            false => &self.buffer[self.left.start - (self.start - row.at) as usize..][..size],
        };
        D::front(bytes, size)
    }

    /// How many bytes the recording has. After it has ended, what is left of it is passed over.
    pub fn end(&mut self) -> io::Result<u64> {
        self.source.end()
    }

    /// Goes on to the next frames, at least one; none at the end alone, and how it ended. After that,
    /// and after an error, it is not called again.
    pub fn go_on(&mut self) -> io::Result<Option<Ended>> {
        self.rows.clear();
        self.broken.clear();
        self.buffer.truncate(self.piece);
        self.buffer.shrink_to_fit();
        loop {
            let stop = self.take();
            if let Some(last) = self.rows.last() {
                let end = last.at + u64::from(last.size);
                self.left.start += (end - self.start) as usize;
                self.start = end;
                return Ok(None);
            }
            if let Some(refusal) = stop.filter(|refusal| *refusal != Refusal::StretchCut) {
                return Ok(Some(self.stopped(refusal)));
            }
            self.move_up();
            let size = self.declared();
            let goes_on = match size > self.piece {
                true => self.long_frame(size)?,
                false => self.read_more()?,
            };
            if !goes_on {
                return Ok(Some(match stop {
                    Some(refusal) => self.stopped(refusal),
                    None => Ended::Whole(self.start),
                }));
            }
            if !self.rows.is_empty() {
                return Ok(None);
            }
        }
    }

    /// Rows for the frames that are whole in what is left, as many as there is room for. Why that
    /// goes no further, if it doesn't. It alone calls `stretch`, so that the compiler inlines that
    /// here.
    fn take(&mut self) -> Option<Refusal> {
        let piece = &self.buffer[self.left.clone()];
        for frame in D::stretch(piece) {
            let frame = match frame {
                Ok(frame) => frame,
                Err(Stop { refusal, .. }) => return Some(refusal),
            };
            let row = Row::of(self.start, &frame);
            self.rows.push(row);
            // So that a sound frame is asked no more than that.
            if row.refusal.is_some() {
                let frame = &piece[frame.at..frame.next];
                self.broken.extend(Broken::of(row, frame));
            }
            if self.rows.len() == ROWS {
                break;
            }
        }
        None
    }

    fn move_up(&mut self) {
        let len = self.left.len();
        self.buffer.copy_within(self.left.clone(), 0);
        self.left = 0..len;
    }

    /// The size of the frame at the front; 0 if that isn't there yet.
    fn declared(&self) -> usize {
        let front = self.buffer[self.left.clone()].first_chunk();
        front.map_or(0, |size| u32::from_le_bytes(*size) as usize)
    }

    /// Looks at a frame that is longer than a piece, of which the front is in the buffer and nothing
    /// else is; what its fields need of it stays there. False where the recording ends in it.
    fn long_frame(&mut self, size: usize) -> io::Result<bool> {
        let mut wanted = self.piece;
        let row = loop {
            if !self.fill(wanted)? {
                return Ok(false);
            }
            let row = Row::of(self.start, &D::front(&self.buffer[..wanted], size));
            if row.refusal != Some(Refusal::Short) || wanted == size {
                break row;
            }
            wanted = more(wanted).min(size);
        };
        if let Some(place) = row.place() {
            wanted = wanted.max(broken::end(place, size));
        }
        if !self.fill(wanted)? || !self.source.pass((size - wanted) as u64)? {
            return Ok(false);
        }
        self.broken.extend(Broken::of(row, &self.buffer));
        self.rows.push(row);
        self.start += size as u64;
        self.left = 0..0;
        Ok(true)
    }

    /// So many bytes of a long frame; false where there are fewer. Without the room, an error and no
    /// panic.
    fn fill(&mut self, wanted: usize) -> io::Result<bool> {
        let missing = wanted - self.left.end;
        self.buffer.truncate(self.left.end);
        let room = self.buffer.try_reserve_exact(missing);
        room.map_err(|_| ErrorKind::OutOfMemory)?;
        let mut source = self.source.by_ref().take(missing as u64);
        let read = source.read_to_end(&mut self.buffer)?;
        self.left.end += read;
        Ok(read == missing)
    }

    /// Some bytes more of a piece; false at the end.
    fn read_more(&mut self) -> io::Result<bool> {
        loop {
            match self.source.read(&mut self.buffer[self.left.end..]) {
                Ok(count) => {
                    self.left.end += count;
                    return Ok(count > 0);
                }
                Err(error) if error.kind() == ErrorKind::Interrupted => {}
                Err(error) => return Err(error),
            }
        }
    }

    fn stopped(&self, refusal: Refusal) -> Ended {
        let at = self.start;
        Ended::Stopped { at, refusal }
    }
}

/// The next length to be tried.
fn more(wanted: usize) -> usize {
    match wanted < FIELDS {
        true => (2 * wanted).min(FIELDS),
        false => wanted.saturating_mul(2),
    }
}

/// A refusal of a piece, its place counted from the recording's first byte: the piece starts there.
#[cold]
fn counted_on(start: u64, refusal: Refusal) -> Refusal {
    let counted = |at| start as usize + at;
    match refusal {
        Refusal::NotUtf8 { at } => Refusal::NotUtf8 { at: counted(at) },
        Refusal::ZeroByte { at } => Refusal::ZeroByte { at: counted(at) },
        other => other,
    }
}
