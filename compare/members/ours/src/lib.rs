//! The proved library, over its C boundary.

use judge::Direction;
use sheafsledge_sys::*;

pub use sheafsledge_sys::{Outcome, Packed, Qid, ENTRY_VALUES, QID_VALUES, R_VALUES, SPAN_VALUES};

/// What the library answers, and the values that it leaves beside it.
pub type Told<const N: usize> = (Outcome, [u64; N]);

/// What lent values are before a reading, so that one which is not written is seen.
pub const UNWRITTEN: u64 = u64::MAX;

/// An answer of either direction. A request has 10 values and a reply 22; what is after them stays
/// unwritten, as do those that the frame's type does not have.
#[derive(Clone, Debug, Default, PartialEq, Eq)]
pub struct Flat {
    pub outcome: Outcome,
    pub values: [u64; R_VALUES],
}

/// A frame of one direction.
#[derive(Clone, Copy)]
pub struct Crossed<const N: usize> {
    pub outcome: Outcome,
    pub values: [u64; N],
}

pub type CrossedT = Crossed<T_VALUES>;
pub type CrossedR = Crossed<R_VALUES>;

impl<const N: usize> Crossed<N> {
    /// Read as if another frame had been read there.
    fn told(read: impl FnOnce(&mut Self)) -> Flat {
        let mut frame = Self {
            outcome: Outcome::default(),
            values: [UNWRITTEN; N],
        };
        read(&mut frame);
        frame.into()
    }
}

impl<const N: usize> Default for Crossed<N> {
    fn default() -> Self {
        Self {
            outcome: Outcome::default(),
            values: [0; N],
        }
    }
}

/// What crosses the boundary for a direction. All functions are the library's and no more, so that
/// nothing else is in their time.
pub trait Crossing: Copy + Default {
    fn read(&mut self, bytes: &[u8]);
    /// The body of a frame that stands from a position to the end of the bytes.
    fn read_body(&mut self, bytes: &[u8], at: usize, ty: u8);
    fn write(&self, out: &mut [u8], lent: &[u8]) -> Outcome;
}

macro_rules! crossing {
    ($crossed:ident $read:ident $body:ident $write:ident) => {
        impl Crossing for $crossed {
            #[inline]
            fn read(&mut self, bytes: &[u8]) {
                // SAFETY: the pointer and the count are a slice's, which the library reads and
                // does not keep; the values are borrowed alone, and as many as the function takes.
                self.outcome = unsafe { $read(bytes.as_ptr(), bytes.len(), &mut self.values) };
            }

            #[inline]
            fn read_body(&mut self, bytes: &[u8], at: usize, ty: u8) {
                let (from, count) = (bytes.as_ptr(), bytes.len());
                // SAFETY: as in reading a frame.
                self.outcome = unsafe { $body(from, count, at, ty, &mut self.values) };
            }

            #[inline]
            fn write(&self, out: &mut [u8], lent: &[u8]) -> Outcome {
                let (to, room, from, count) =
                    (out.as_mut_ptr(), out.len(), lent.as_ptr(), lent.len());
                let (outcome, values) = (&self.outcome, &self.values);
                let (refusal, ty, tag) = (outcome.refusal, outcome.ty, outcome.tag);
                // SAFETY: as in reading; the output is borrowed alone, so it overlaps nothing.
                unsafe { $write(to, room, from, count, refusal, ty, Tag(tag), values) }
            }
        }
    };
}

crossing!(CrossedT sheafsledge_read_tframe sheafsledge_read_tbody sheafsledge_write_tframe);
crossing!(CrossedR sheafsledge_read_rframe sheafsledge_read_rbody sheafsledge_write_rframe);

pub fn read(direction: Direction, bytes: &[u8]) -> Flat {
    match direction {
        Direction::T => CrossedT::told(|frame| frame.read(bytes)),
        Direction::R => CrossedR::told(|frame| frame.read(bytes)),
    }
}

/// The body of a frame that stands from a position to the end of the bytes.
pub fn read_body(direction: Direction, bytes: &[u8], at: usize, ty: u8) -> Flat {
    match direction {
        Direction::T => CrossedT::told(|frame| frame.read_body(bytes, at, ty)),
        Direction::R => CrossedR::told(|frame| frame.read_body(bytes, at, ty)),
    }
}

pub fn write(direction: Direction, out: &mut [u8], lent: &[u8], frame: &Flat) -> Outcome {
    match direction {
        Direction::T => CrossedT::from(frame).write(out, lent),
        Direction::R => CrossedR::from(frame).write(out, lent),
    }
}

/// A request with two strings, each in a slice of its own.
pub fn write_two(out: &mut [u8], [first, second]: [&[u8]; 2], frame: &Flat) -> Outcome {
    let (to, room) = (out.as_mut_ptr(), out.len());
    let (from, count) = (first.as_ptr(), first.len());
    let (other, other_count) = (second.as_ptr(), second.len());
    let CrossedT { outcome, values } = frame.into();
    let (ty, tag) = (outcome.ty, Tag(outcome.tag));
    // SAFETY: as in writing a frame; the second string is a slice too.
    unsafe { sheafsledge_write_two(to, room, from, count, other, other_count, ty, tag, &values) }
}

#[inline]
pub fn frame_at(bytes: &[u8], position: usize) -> Outcome {
    // SAFETY: as in reading a frame.
    unsafe { sheafsledge_frame_at(bytes.as_ptr(), bytes.len(), position) }
}

/// Calls a function that fills values, and gives both.
fn told<const N: usize>(read: impl FnOnce(&mut [u64; N]) -> Outcome) -> Told<N> {
    let mut values = [UNWRITTEN; N];
    (read(&mut values), values)
}

pub fn read_dirent(bytes: &[u8], at: usize) -> Told<ENTRY_VALUES> {
    // SAFETY: as in reading a frame.
    told(|values| unsafe { sheafsledge_read_dirent(bytes.as_ptr(), bytes.len(), at, values) })
}

pub fn write_dirent(
    out: &mut [u8],
    at: usize,
    lent: &[u8],
    values: &[u64; ENTRY_VALUES],
) -> Outcome {
    let (to, room) = (out.as_mut_ptr(), out.len());
    // SAFETY: as in writing a frame.
    unsafe { sheafsledge_write_dirent(to, room, at, lent.as_ptr(), lent.len(), values) }
}

#[inline]
pub fn entry_at(block: &[u8], position: usize, values: &mut [u64; ENTRY_VALUES]) -> Outcome {
    // SAFETY: as in reading a frame.
    unsafe { sheafsledge_entry_at(block.as_ptr(), block.len(), position, values) }
}

#[inline]
pub fn pack(out: &mut [u8], count: u32, names: &[u8], rows: &[[u64; ENTRY_VALUES]]) -> Packed {
    let (to, room, from, len) = (out.as_mut_ptr(), out.len(), names.as_ptr(), names.len());
    // SAFETY: as in writing a frame; the rows are a slice's too.
    unsafe { sheafsledge_pack(to, room, count, from, len, rows.as_ptr(), rows.len()) }
}

pub fn is_utf8(bytes: &[u8]) -> bool {
    // SAFETY: as in reading a frame.
    unsafe { sheafsledge_is_utf8(bytes.as_ptr(), bytes.len()) }
}

/// The elements of a vector among some bytes: how many, where they start, and how long they are.
#[derive(Clone, Copy, Debug)]
pub struct Part {
    pub count: u16,
    pub start: usize,
    pub len: usize,
}

pub fn name_at(lent: &[u8], part: Part, i: usize) -> Told<SPAN_VALUES> {
    let (from, all, Part { count, start, len }) = (lent.as_ptr(), lent.len(), part);
    // SAFETY: as in reading a frame.
    told(|span| unsafe { sheafsledge_name_at(from, all, count, start, len, i, span) })
}

pub fn qid_at(lent: &[u8], part: Part, i: usize) -> Told<SPAN_VALUES> {
    let (from, all, Part { count, start, len }) = (lent.as_ptr(), lent.len(), part);
    // SAFETY: as in reading a frame.
    told(|span| unsafe { sheafsledge_qid_at(from, all, count, start, len, i, span) })
}

pub fn read_qid(bytes: &[u8], at: usize) -> Told<QID_VALUES> {
    // SAFETY: as in reading a frame.
    told(|values| unsafe { sheafsledge_read_qid(bytes.as_ptr(), bytes.len(), at, values) })
}

/// The tag, the fid and the new fid of a Twalk.
pub type Head = (u16, u32, u32);

pub fn write_twalk(out: &mut [u8], lent: &[u8], head: Head, names: &[[usize; 2]]) -> Outcome {
    let (to, room, from, count) = (out.as_mut_ptr(), out.len(), lent.as_ptr(), lent.len());
    let (tag, fid, newfid) = (Tag(head.0), Fid(head.1), Fid(head.2));
    let (rows, rows_count) = (names.as_ptr(), names.len());
    // SAFETY: as in writing a frame; the table is a slice's too.
    unsafe { sheafsledge_write_twalk(to, room, from, count, tag, fid, newfid, rows, rows_count) }
}

pub fn write_rwalk(out: &mut [u8], tag: u16, qids: &[Qid]) -> Outcome {
    let (to, room) = (out.as_mut_ptr(), out.len());
    // SAFETY: as in writing a frame; the table is a slice's too.
    unsafe { sheafsledge_write_rwalk(to, room, tag, qids.as_ptr(), qids.len()) }
}

/// Whether a reply answers a request, each told by its type and its tag.
pub fn answers(request: (u8, u16), reply: (u8, u16)) -> bool {
    // SAFETY: numbers alone.
    unsafe { sheafsledge_answers(request.0, Tag(request.1), reply.0, Tag(reply.1)) }
}

impl<const N: usize> From<Crossed<N>> for Flat {
    fn from(frame: Crossed<N>) -> Self {
        let mut values = [UNWRITTEN; R_VALUES];
        values[..N].copy_from_slice(&frame.values);
        let outcome = frame.outcome;
        Self { outcome, values }
    }
}

impl<const N: usize> From<&Flat> for Crossed<N> {
    fn from(frame: &Flat) -> Self {
        let values = *frame.values.first_chunk().expect("no more than a reply's");
        let outcome = frame.outcome;
        Self { outcome, values }
    }
}
