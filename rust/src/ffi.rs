//! The proved library over its C boundary; all calls of it are here.

use crate::boundary::{self, *};
use crate::{Mark, Refusal, Stop, Tag, WalkHead};

#[inline]
pub fn read_t(bytes: &[u8], values: &mut [u64; T_VALUES]) -> Outcome {
    // SAFETY: pointer and count are a slice's, and the values are borrowed alone. The library is
    // proved to touch nothing else, and keeps neither (its contract speaks of the two alone).
    unsafe { sheafsledge_read_tframe(bytes.as_ptr(), bytes.len(), values) }
}

#[inline]
pub fn read_r(bytes: &[u8], values: &mut [u64; R_VALUES]) -> Outcome {
    // SAFETY: as for `read_t`.
    unsafe { sheafsledge_read_rframe(bytes.as_ptr(), bytes.len(), values) }
}

/// The body of a request that stands from a place to the end of the bytes. Spans, and a refusal's place,
/// count from the first of these, the bytes used from that place.
#[inline]
pub fn read_tbody(bytes: &[u8], at: usize, ty: u8, values: &mut [u64; T_VALUES]) -> Outcome {
    // SAFETY: as for `read_t`; any place and any type are answered.
    unsafe { sheafsledge_read_tbody(bytes.as_ptr(), bytes.len(), at, ty, values) }
}

/// The same of a reply.
#[inline]
pub fn read_rbody(bytes: &[u8], at: usize, ty: u8, values: &mut [u64; R_VALUES]) -> Outcome {
    // SAFETY: as for `read_tbody`.
    unsafe { sheafsledge_read_rbody(bytes.as_ptr(), bytes.len(), at, ty, values) }
}

#[inline]
pub fn frame_at(bytes: &[u8], position: usize) -> Outcome {
    // SAFETY: as for `read_t`; any position is answered.
    unsafe { sheafsledge_frame_at(bytes.as_ptr(), bytes.len(), position) }
}

/// The place after the entry. A refusal's counts from the first of the bytes.
pub fn read_dirent(
    bytes: &[u8],
    at: usize,
    values: &mut [u64; ENTRY_VALUES],
) -> Result<usize, Refusal> {
    // SAFETY: as for `read_t`; any place is answered.
    unsafe { sheafsledge_read_dirent(bytes.as_ptr(), bytes.len(), at, values) }.told()
}

/// The entry at a position of a block, and the place after it; none where the block ends there.
#[inline]
pub fn entry_at(
    block: &[u8],
    position: usize,
    values: &mut [u64; ENTRY_VALUES],
) -> Result<Option<usize>, Refusal> {
    // SAFETY: as for `read_t`; any position is answered.
    let step = unsafe { sheafsledge_entry_at(block.as_ptr(), block.len(), position, values) };
    step.told().map(|next| step.held.then_some(next))
}

pub fn read_qid(bytes: &[u8], at: usize) -> Result<[u64; QID_VALUES], Refusal> {
    let mut values = [0; QID_VALUES];
    // SAFETY: as for `read_dirent`.
    let read = unsafe { sheafsledge_read_qid(bytes.as_ptr(), bytes.len(), at, &mut values) };
    read.told().map(|_| values)
}

pub fn is_utf8(bytes: &[u8]) -> bool {
    // SAFETY: as for `read_t`.
    unsafe { sheafsledge_is_utf8(bytes.as_ptr(), bytes.len()) }
}

/// Where name `i` of a part that is all of the lent bytes starts, and its length.
pub fn name_at(part: &[u8], count: u16, i: usize) -> Result<[u64; SPAN_VALUES], Refusal> {
    let (from, len, mut span) = (part.as_ptr(), part.len(), [0; SPAN_VALUES]);
    // SAFETY: as for `read_t`.
    let found = unsafe { sheafsledge_name_at(from, len, count, 0, len, i, &mut span) };
    found.told().map(|_| span)
}

/// The same of qid `i`.
pub fn qid_at(part: &[u8], count: u16, i: usize) -> Result<[u64; SPAN_VALUES], Refusal> {
    let (from, len, mut span) = (part.as_ptr(), part.len(), [0; SPAN_VALUES]);
    // SAFETY: as for `read_t`.
    let found = unsafe { sheafsledge_qid_at(from, len, count, 0, len, i, &mut span) };
    found.told().map(|_| span)
}

pub fn answers(request: Mark, reply: Mark) -> bool {
    let (request_tag, reply_tag) = (crossing(request.tag), crossing(reply.tag));
    // SAFETY: numbers alone, and any are answered.
    unsafe { sheafsledge_answers(request.ty, request_tag, reply.ty, reply_tag) }
}

#[inline]
pub fn write_t(
    out: &mut [u8],
    lent: &[u8],
    (ty, tag): (u8, Tag),
    values: &[u64; T_VALUES],
) -> Outcome {
    let (to, room, from, count) = (out.as_mut_ptr(), out.len(), lent.as_ptr(), lent.len());
    // SAFETY: as for `read_t`; the output is borrowed alone, so that it overlaps nothing, and the
    // values are as many as the function takes.
    unsafe { sheafsledge_write_tframe(to, room, from, count, 0, ty, crossing(tag), values) }
}

/// A request with two strings, each in a slice of its own. A place in the second counts on from the
/// first.
pub fn write_two(
    out: &mut [u8],
    [first, second]: [&[u8]; 2],
    (ty, tag): (u8, Tag),
    values: &[u64; T_VALUES],
) -> Outcome {
    let (to, room, tag) = (out.as_mut_ptr(), out.len(), crossing(tag));
    let (first, first_count) = (first.as_ptr(), first.len());
    let (second, second_count) = (second.as_ptr(), second.len());
    // SAFETY: as for `write_t`; both strings are slices.
    unsafe {
        sheafsledge_write_two(
            to,
            room,
            first,
            first_count,
            second,
            second_count,
            ty,
            tag,
            values,
        )
    }
}

#[inline]
pub fn write_r(
    out: &mut [u8],
    lent: &[u8],
    (ty, tag): (u8, Tag),
    values: &[u64; R_VALUES],
) -> Outcome {
    let (to, room, from, count) = (out.as_mut_ptr(), out.len(), lent.as_ptr(), lent.len());
    // SAFETY: as for `write_t`.
    unsafe { sheafsledge_write_rframe(to, room, from, count, 0, ty, crossing(tag), values) }
}

/// An Rgetattr, which has no spans.
#[inline]
pub fn write_rgetattr(out: &mut [u8], tag: Tag, values: &[u64; R_VALUES]) -> Outcome {
    let (to, room, lent): (_, _, &[u8]) = (out.as_mut_ptr(), out.len(), &[]);
    // SAFETY: as for `write_t`.
    unsafe {
        sheafsledge_write_rgetattr(to, room, lent.as_ptr(), lent.len(), crossing(tag), values)
    }
}

pub fn write_dirent(
    out: &mut [u8],
    at: usize,
    lent: &[u8],
    values: &[u64; ENTRY_VALUES],
) -> Result<usize, Refusal> {
    let (to, room) = (out.as_mut_ptr(), out.len());
    // SAFETY: as for `write_t`; any place is answered.
    unsafe { sheafsledge_write_dirent(to, room, at, lent.as_ptr(), lent.len(), values) }.told()
}

/// How many entries were packed, and how many bytes they are.
#[inline]
pub fn pack(
    out: &mut [u8],
    count: u32,
    names: &[u8],
    rows: &[[u64; ENTRY_VALUES]],
) -> Result<[usize; 2], Refusal> {
    let (to, room, from, len) = (out.as_mut_ptr(), out.len(), names.as_ptr(), names.len());
    // SAFETY: as for `write_t`; the rows are a slice's too, and a name out of the lent bytes is
    // refused with 9.
    let Packed {
        refusal,
        entries,
        place,
    } = unsafe { sheafsledge_pack(to, room, count, from, len, rows.as_ptr(), rows.len()) };
    Refusal::of(refusal, place).map_or(Ok([entries, place]), Err)
}

pub fn write_twalk(
    out: &mut [u8],
    lent: &[u8],
    head: WalkHead,
    names: &[[usize; 2]],
) -> Result<usize, Refusal> {
    let (to, room, from, count) = (out.as_mut_ptr(), out.len(), lent.as_ptr(), lent.len());
    let (tag, fid, newfid) = (crossing(head.tag), Fid(head.fid.0), Fid(head.newfid.0));
    let (rows, rows_count) = (names.as_ptr(), names.len());
    // SAFETY: as for `write_t`; the rows are a slice's too, and a row out of the lent bytes is
    // refused with 9.
    unsafe { sheafsledge_write_twalk(to, room, from, count, tag, fid, newfid, rows, rows_count) }
        .told()
}

pub fn write_rwalk(out: &mut [u8], tag: Tag, qids: &[Qid]) -> Result<usize, Refusal> {
    let (to, room) = (out.as_mut_ptr(), out.len());
    // SAFETY: as for `write_t`; a `Qid` is laid out as the library's, since both are C structs of
    // the same fields.
    unsafe { sheafsledge_write_rwalk(to, room, tag.0, qids.as_ptr(), qids.len()) }.told()
}

/// How many rows of the table the plan has.
pub fn plan(
    table: &mut [[u64; PIECE_VALUES]],
    first: u64,
    len: u64,
    msize: u32,
) -> Result<usize, Refusal> {
    // SAFETY: pointer and count are a slice's, which is borrowed alone; any numbers are answered.
    unsafe { sheafsledge_plan(table.as_mut_ptr(), table.len(), first, len, msize) }.told()
}

pub fn accepts(pieces: &[[u64; PIECE_VALUES]], first: u64, len: u64, msize: u32) -> bool {
    // SAFETY: pointer and count are a slice's; any numbers are answered.
    unsafe { sheafsledge_accepts(pieces.as_ptr(), pieces.len(), first, len, msize) }
}

/// How many bytes and how many frames were imported.
pub fn import(
    out: &mut [u8],
    times: &mut [[u32; TIME_VALUES]],
    file: &[u8],
) -> Result<(usize, usize), Stop> {
    let (to, room) = (out.as_mut_ptr(), out.len());
    let (rows, rows_count) = (times.as_mut_ptr(), times.len());
    let mut frames = [0];
    // SAFETY: pointers and counts are those of slices, and what is written to is borrowed alone; any
    // file is answered.
    let told = unsafe {
        let (from, count) = (file.as_ptr(), file.len());
        sheafsledge_import(to, room, rows, rows_count, from, count, &mut frames)
    };
    placed(told).map(|bytes| (bytes, frames[0] as usize))
}

/// How long the file is.
pub fn export(out: &mut [u8], stretch: &[u8], times: &[[u32; TIME_VALUES]]) -> Result<usize, Stop> {
    let (to, room, from, count) = (out.as_mut_ptr(), out.len(), stretch.as_ptr(), stretch.len());
    // SAFETY: as for `import`; any stretch is answered.
    placed(unsafe { sheafsledge_export(to, room, from, count, times.as_ptr(), times.len()) })
}

/// What an outcome is where a refusal has a position.
fn placed(told: Outcome) -> Result<usize, Stop> {
    let at = told.place;
    told.told().map_err(|refusal| Stop { at, refusal })
}

/// The calls of an older dialect, each as that of 9P2000.L beside whose name it stands.
macro_rules! older {
    (
        $(#[$doc:meta])* $dialect:ident:
        $read_tframe:ident $read_rframe:ident $read_tbody:ident $read_rbody:ident
        $write_tframe:ident $write_rframe:ident $answers:ident
    ) => {
        $(#[$doc])*
        pub mod $dialect {
            use super::*;

            #[inline]
            pub fn read_t(bytes: &[u8], values: &mut [u64; PLAIN_T_VALUES]) -> Outcome {
                // SAFETY: as for 9P2000.L's.
                unsafe { $read_tframe(bytes.as_ptr(), bytes.len(), values) }
            }

            #[inline]
            pub fn read_r(bytes: &[u8], values: &mut [u64; PLAIN_R_VALUES]) -> Outcome {
                // SAFETY: as for 9P2000.L's.
                unsafe { $read_rframe(bytes.as_ptr(), bytes.len(), values) }
            }

            #[inline]
            pub fn read_tbody(
                bytes: &[u8],
                at: usize,
                ty: u8,
                values: &mut [u64; PLAIN_T_VALUES],
            ) -> Outcome {
                // SAFETY: as for 9P2000.L's.
                unsafe { $read_tbody(bytes.as_ptr(), bytes.len(), at, ty, values) }
            }

            #[inline]
            pub fn read_rbody(
                bytes: &[u8],
                at: usize,
                ty: u8,
                values: &mut [u64; PLAIN_R_VALUES],
            ) -> Outcome {
                // SAFETY: as for 9P2000.L's.
                unsafe { $read_rbody(bytes.as_ptr(), bytes.len(), at, ty, values) }
            }

            #[inline]
            pub fn write_t(
                out: &mut [u8],
                lent: &[u8],
                (ty, tag): (u8, Tag),
                values: &[u64; PLAIN_T_VALUES],
            ) -> Outcome {
                let (to, room, from, count) =
                    (out.as_mut_ptr(), out.len(), lent.as_ptr(), lent.len());
                // SAFETY: as for 9P2000.L's.
                unsafe { $write_tframe(to, room, from, count, 0, ty, crossing(tag), values) }
            }

            #[inline]
            pub fn write_r(
                out: &mut [u8],
                lent: &[u8],
                (ty, tag): (u8, Tag),
                values: &[u64; PLAIN_R_VALUES],
            ) -> Outcome {
                let (to, room, from, count) =
                    (out.as_mut_ptr(), out.len(), lent.as_ptr(), lent.len());
                // SAFETY: as for 9P2000.L's.
                unsafe { $write_rframe(to, room, from, count, 0, ty, crossing(tag), values) }
            }

            pub fn answers(request: Mark, reply: Mark) -> bool {
                let (request_tag, reply_tag) = (crossing(request.tag), crossing(reply.tag));
                // SAFETY: as for 9P2000.L's.
                unsafe { $answers(request.ty, request_tag, reply.ty, reply_tag) }
            }
        }
    };
}

older! {
    /// 9P2000's.
    plain:
    sheafsledge_plain_read_tframe sheafsledge_plain_read_rframe
    sheafsledge_plain_read_tbody sheafsledge_plain_read_rbody
    sheafsledge_plain_write_tframe sheafsledge_plain_write_rframe sheafsledge_plain_answers
}

older! {
    /// 9P2000.u's.
    unix:
    sheafsledge_unix_read_tframe sheafsledge_unix_read_rframe
    sheafsledge_unix_read_tbody sheafsledge_unix_read_rbody
    sheafsledge_unix_write_tframe sheafsledge_unix_write_rframe sheafsledge_unix_answers
}

/// A tag as it crosses.
#[inline(always)]
fn crossing(tag: Tag) -> boundary::Tag {
    boundary::Tag(tag.0)
}

pub fn session() -> Session {
    // SAFETY: it takes nothing.
    unsafe { sheafsledge_session() }
}

/// The session follows the frame at a position.
pub fn follow(session: &mut Session, stretch: &[u8], position: usize) -> boundary::Told {
    let (from, count) = (stretch.as_ptr(), stretch.len());
    // SAFETY: as for `read_t`; the session crosses by value, and any record and position are answered.
    let followed = unsafe { sheafsledge_follow(*session, from, count, position) };
    *session = followed.session;
    followed.told
}

pub fn path(out: &mut [u8], session: &Session, fid: u32, stretch: &[u8]) -> Result<usize, Refusal> {
    let (to, room, from, count) = (out.as_mut_ptr(), out.len(), stretch.as_ptr(), stretch.len());
    // SAFETY: as for `write_t`; the session crosses by value, and any record is answered.
    unsafe { sheafsledge_path(to, room, *session, fid, from, count) }.told()
}

pub fn sealed(file: &[u8]) -> bool {
    // SAFETY: as for `read_t`.
    unsafe { sheafsledge_sealed(file.as_ptr(), file.len()) }
}

pub fn trailer(out: &mut [u8], stretch: &[u8]) -> Result<usize, Stop> {
    let (to, room, from, count) = (out.as_mut_ptr(), out.len(), stretch.as_ptr(), stretch.len());
    // SAFETY: as for `write_t`.
    let put = unsafe { sheafsledge_trailer(to, room, from, count) };
    put.told().map_err(|refusal| Stop {
        at: put.place,
        refusal,
    })
}

/// What an outcome is in Rust: the place, or the refusal.
pub trait Told {
    fn told(self) -> Result<usize, Refusal>;
}

impl Told for Outcome {
    #[inline(always)]
    fn told(self) -> Result<usize, Refusal> {
        Refusal::of(self.refusal, self.place).map_or(Ok(self.place), Err)
    }
}
