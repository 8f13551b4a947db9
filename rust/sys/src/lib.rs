//! The proved library as C sees it: the functions of the crates `exports`, `request_exports`,
//! `reply_exports`, `stretch_exports`, `planning_exports`, `block_exports`, `capture_exports`,
//! `plain_exports`, `unix_exports` and `session_exports`, and the archive that holds them, which the
//! build script has linked. The crate
//! `sheafsledge` is what a server calls; it adds slices, records and refusals to these.
//!
//! Nothing joins the two texts but the names of the functions, so a difference would be read as
//! other values. The layouts are held to C's at the end of this file, when it is compiled;
//! `tests/boundary.rs` of the crate above holds the text to the library's, field by field and
//! parameter by parameter.

#![no_std]
#![warn(missing_docs)]

#[cfg(not(all(target_arch = "x86_64", target_os = "linux")))]
compile_error!("sheafsledge is for x86-64 Linux alone: the proved library is compiled for that");

mod boundary;

pub use boundary::BOUNDARY;

/// How many values hold any request.
pub const T_VALUES: usize = 10;
/// How many values hold any reply.
pub const R_VALUES: usize = 22;
/// How many values hold any request of 9P2000, and any of 9P2000.u.
pub const PLAIN_T_VALUES: usize = 23;
/// How many values hold any reply of either.
pub const PLAIN_R_VALUES: usize = 22;
/// How many values a directory entry has.
pub const ENTRY_VALUES: usize = 7;
/// How many values a qid has.
pub const QID_VALUES: usize = 3;
/// How many values an element of a walk has: where it starts, and its length.
pub const SPAN_VALUES: usize = 2;
/// How many values a piece of a plan has: its offset, and its length.
pub const PIECE_VALUES: usize = 2;
/// How many values a frame's time has: seconds, and microseconds.
pub const TIME_VALUES: usize = 2;

/// What the library answers for all that it reads or writes: 0 and the place after it, or the
/// refusal. Of a frame there is a tag too, and a type where it is accepted or stands at a position;
/// `held` says that there is one. Of a body alone there is neither, and the place after it counts from
/// its frame: so many bytes are used. Values go to the front of the caller's room, as many as what is
/// read has; after them, and where it is refused, the room is as it was. Of a refusal, `place` is
/// where a text breaks for 5, the first zero byte for 6, and the position of what is no frame in a
/// stretch; else it is 0. Places in a text count as spans do: from the first byte that is read, or in
/// the lent bytes.
#[repr(C)]
#[derive(Clone, Copy, Debug, Default, PartialEq, Eq)]
pub struct Outcome {
    /// 0, or the number of the refusal.
    pub refusal: u8,
    /// A frame's type.
    pub ty: u8,
    /// A frame's tag.
    pub tag: u16,
    /// Whether there is a frame.
    pub held: bool,
    /// The place after what was read or written, or what a refusal tells of.
    pub place: usize,
}

/// What the library answers once entries were packed: 0, how many of them and how many bytes; or the
/// refusal of a name with its place, as in an [`Outcome`], and no entries.
#[repr(C)]
#[derive(Clone, Copy, Debug, Default, PartialEq, Eq)]
pub struct Packed {
    /// 0, or the number of the refusal.
    pub refusal: u8,
    /// How many entries stand in the output.
    pub entries: usize,
    /// How many bytes they are, or what a refusal tells of.
    pub place: usize,
}

/// What a server calls a file: 13 bytes on the wire.
#[repr(C)]
#[derive(Clone, Copy, Debug, Default, PartialEq, Eq)]
pub struct Qid {
    /// The kind of file: 0x80 for a directory, 0x02 for a symbolic link, 0 for a file.
    pub ty: u8,
    /// Another one whenever the file's bytes are others.
    pub version: u32,
    /// The file's own number, which no other file of the server has.
    pub path: u64,
}

/// A fid is handed over only where a fid is meant: neither a tag nor any other number fits there.
#[repr(C)]
#[derive(Clone, Copy, Debug, PartialEq, Eq)]
pub struct Fid(
    /// The number on the wire.
    pub u32,
);

/// A tag, in the same way.
#[repr(C)]
#[derive(Clone, Copy, Debug, PartialEq, Eq)]
pub struct Tag(
    /// The number on the wire.
    pub u16,
);

/// What a session keeps of a request: the fid that must be new, the one that must be known, the one
/// that the reply gives, moves or drops; a flush's old tag; and where a walk's names stand, or the
/// name of a file that is made.
#[repr(C)]
#[derive(Clone, Copy, Debug, PartialEq, Eq)]
pub struct Request {
    /// The request's type.
    pub ty: u8,
    /// The fid that must be new.
    pub new: u64,
    /// The fid that must be known.
    pub known: u64,
    /// The fid that the reply gives, moves or drops.
    pub to: u64,
    /// A flush's old tag.
    pub old: u16,
    /// How many names a walk has.
    pub count: u16,
    /// Where its names start in the stretch.
    pub start: usize,
    /// How many bytes they are.
    pub len: usize,
}

/// The places of a session; the first `used` rows are places.
#[repr(C)]
#[derive(Clone, Copy, Debug, PartialEq, Eq)]
pub struct Places {
    /// The place that each was reached from; a root has itself.
    pub older: [u8; 256],
    /// Where its name starts in the stretch.
    pub starts: [usize; 256],
    /// How many bytes the name has.
    pub lens: [usize; 256],
    /// How many places there are.
    pub used: usize,
}

/// The record of a guest's session: the open requests by their tags, the fids with their places, and
/// the places. The library makes the first one and each that follows.
#[repr(C)]
#[derive(Clone, Copy, Debug, PartialEq, Eq)]
pub struct Session {
    /// The tags of the open requests; 4,294,967,296 in a row that is free.
    pub tags: [u64; 64],
    /// The open requests.
    pub requests: [Request; 64],
    /// The fids; 4,294,967,296 in a row that is free.
    pub fids: [u64; 64],
    /// The place of each fid.
    pub at: [u8; 64],
    /// The places.
    pub places: Places,
}

/// What the library tells of a frame that a session has followed: an [`Outcome`], the tail, and the
/// fid that the frame is about, 4,294,967,297 if there is none.
#[repr(C)]
#[derive(Clone, Copy, Debug, PartialEq, Eq)]
pub struct Told {
    /// 0, or the number of the refusal.
    pub refusal: u8,
    /// The frame's type.
    pub ty: u8,
    /// The frame's tag.
    pub tag: u16,
    /// Whether there is a frame.
    pub held: bool,
    /// Where the next frame starts; where there is none, the position.
    pub place: usize,
    /// How many bytes stand after the last field; 0 where it is refused.
    pub tail: usize,
    /// The fid that the frame is about.
    pub fid: u64,
}

/// A session after a frame, and what is told of the frame.
#[repr(C)]
#[derive(Clone, Copy, Debug, PartialEq, Eq)]
pub struct Followed {
    /// The session; where the frame is refused, the one before it.
    pub session: Session,
    /// What is told of the frame.
    pub told: Told,
}

extern "C" {
    /// Reads the request at the front of the bytes.
    pub fn sheafsledge_read_tframe(
        bytes: *const u8,
        count: usize,
        values: *mut [u64; T_VALUES],
    ) -> Outcome;
    /// Reads the reply at the front of the bytes.
    pub fn sheafsledge_read_rframe(
        bytes: *const u8,
        count: usize,
        values: *mut [u64; R_VALUES],
    ) -> Outcome;
    /// Reads the body of the request that stands from a place to the end of the bytes, its header
    /// passed over. Spans count from the first of the bytes, and so from that of the stretch.
    pub fn sheafsledge_read_tbody(
        bytes: *const u8,
        count: usize,
        at: usize,
        ty: u8,
        values: *mut [u64; T_VALUES],
    ) -> Outcome;
    /// The same of a reply.
    pub fn sheafsledge_read_rbody(
        bytes: *const u8,
        count: usize,
        at: usize,
        ty: u8,
        values: *mut [u64; R_VALUES],
    ) -> Outcome;
    /// Writes a request from values whose spans point into the lent bytes.
    pub fn sheafsledge_write_tframe(
        out: *mut u8,
        room: usize,
        lent: *const u8,
        count: usize,
        refusal: u8,
        ty: u8,
        tag: Tag,
        values: *const [u64; T_VALUES],
    ) -> Outcome;
    /// Writes a request with two strings, the one all of `first` and the other all of `second`.
    pub fn sheafsledge_write_two(
        out: *mut u8,
        room: usize,
        first: *const u8,
        first_count: usize,
        second: *const u8,
        second_count: usize,
        ty: u8,
        tag: Tag,
        values: *const [u64; T_VALUES],
    ) -> Outcome;
    /// Writes a reply from values whose spans point into the lent bytes.
    pub fn sheafsledge_write_rframe(
        out: *mut u8,
        room: usize,
        lent: *const u8,
        count: usize,
        refusal: u8,
        ty: u8,
        tag: Tag,
        values: *const [u64; R_VALUES],
    ) -> Outcome;
    /// Writes an Rgetattr, type 25, as `sheafsledge_write_rframe` does.
    pub fn sheafsledge_write_rgetattr(
        out: *mut u8,
        room: usize,
        lent: *const u8,
        count: usize,
        tag: Tag,
        values: *const [u64; R_VALUES],
    ) -> Outcome;
    /// Reads the directory entry at a place.
    pub fn sheafsledge_read_dirent(
        bytes: *const u8,
        count: usize,
        at: usize,
        values: *mut [u64; ENTRY_VALUES],
    ) -> Outcome;
    /// Writes a directory entry at a place.
    pub fn sheafsledge_write_dirent(
        out: *mut u8,
        room: usize,
        at: usize,
        lent: *const u8,
        count: usize,
        values: *const [u64; ENTRY_VALUES],
    ) -> Outcome;
    /// The directory entry at a position of a block; `held` says that there is one, and the end has
    /// none.
    pub fn sheafsledge_entry_at(
        block: *const u8,
        block_count: usize,
        position: usize,
        values: *mut [u64; ENTRY_VALUES],
    ) -> Outcome;
    /// Packs directory entries from the front of the table, as many as fit both `count` and the
    /// output.
    pub fn sheafsledge_pack(
        out: *mut u8,
        room: usize,
        count: u32,
        names: *const u8,
        names_count: usize,
        entries: *const [u64; ENTRY_VALUES],
        entries_count: usize,
    ) -> Packed;
    /// Whether the bytes are UTF-8 by RFC 3629.
    pub fn sheafsledge_is_utf8(bytes: *const u8, count: usize) -> bool;
    /// Whether a reply answers a request, by types and tags.
    pub fn sheafsledge_answers(
        request_ty: u8,
        request_tag: Tag,
        reply_ty: u8,
        reply_tag: Tag,
    ) -> bool;
    /// Where name `i` of a walk stands.
    pub fn sheafsledge_name_at(
        lent: *const u8,
        lent_count: usize,
        count: u16,
        start: usize,
        len: usize,
        i: usize,
        span: *mut [u64; SPAN_VALUES],
    ) -> Outcome;
    /// Where qid `i` of a walk stands.
    pub fn sheafsledge_qid_at(
        lent: *const u8,
        lent_count: usize,
        count: u16,
        start: usize,
        len: usize,
        i: usize,
        span: *mut [u64; SPAN_VALUES],
    ) -> Outcome;
    /// Reads the qid at a place.
    pub fn sheafsledge_read_qid(
        bytes: *const u8,
        count: usize,
        at: usize,
        values: *mut [u64; QID_VALUES],
    ) -> Outcome;
    /// Writes a Twalk whose names are parts of the lent bytes, a row for each.
    pub fn sheafsledge_write_twalk(
        out: *mut u8,
        room: usize,
        lent: *const u8,
        count: usize,
        tag: Tag,
        fid: Fid,
        newfid: Fid,
        names: *const [usize; 2],
        names_count: usize,
    ) -> Outcome;
    /// Writes an Rwalk of a table of qids.
    pub fn sheafsledge_write_rwalk(
        out: *mut u8,
        room: usize,
        tag: u16,
        qids: *const Qid,
        qids_count: usize,
    ) -> Outcome;
    /// Plans the Twrites of a large write, a row for each, over the first rows of the table. The place
    /// that is answered is the row after them; refused, the table is as it was.
    pub fn sheafsledge_plan(
        table: *mut [u64; PIECE_VALUES],
        rows: usize,
        first: u64,
        len: u64,
        msize: u32,
    ) -> Outcome;
    /// Whether pieces are a plan of a large write.
    pub fn sheafsledge_accepts(
        pieces: *const [u64; PIECE_VALUES],
        rows: usize,
        first: u64,
        len: u64,
        msize: u32,
    ) -> bool;
    /// Makes a stretch of a capture file, over the front of the output, and puts the time of each frame
    /// over the first rows. The place that is answered is that after the stretch, and `frames` says how
    /// many there are; refused, all three are as they were.
    pub fn sheafsledge_import(
        out: *mut u8,
        room: usize,
        times: *mut [u32; TIME_VALUES],
        rows: usize,
        file: *const u8,
        count: usize,
        frames: *mut [u64; 1],
    ) -> Outcome;
    /// Makes a capture file of a stretch and the times of its frames, and answers the place after it.
    pub fn sheafsledge_export(
        out: *mut u8,
        room: usize,
        stretch: *const u8,
        count: usize,
        times: *const [u32; TIME_VALUES],
        rows: usize,
    ) -> Outcome;
    /// Reads the request of 9P2000 at the front of the bytes.
    pub fn sheafsledge_plain_read_tframe(
        bytes: *const u8,
        count: usize,
        values: *mut [u64; PLAIN_T_VALUES],
    ) -> Outcome;
    /// Reads the reply of 9P2000 at the front of the bytes.
    pub fn sheafsledge_plain_read_rframe(
        bytes: *const u8,
        count: usize,
        values: *mut [u64; PLAIN_R_VALUES],
    ) -> Outcome;
    /// Writes a request of 9P2000 from values whose spans point into the lent bytes.
    pub fn sheafsledge_plain_write_tframe(
        out: *mut u8,
        room: usize,
        lent: *const u8,
        count: usize,
        refusal: u8,
        ty: u8,
        tag: Tag,
        values: *const [u64; PLAIN_T_VALUES],
    ) -> Outcome;
    /// Writes a reply of 9P2000 from values whose spans point into the lent bytes.
    pub fn sheafsledge_plain_write_rframe(
        out: *mut u8,
        room: usize,
        lent: *const u8,
        count: usize,
        refusal: u8,
        ty: u8,
        tag: Tag,
        values: *const [u64; PLAIN_R_VALUES],
    ) -> Outcome;
    /// Reads the body of a request of 9P2000 that stands from a place to the end of the bytes, its
    /// header passed over.
    pub fn sheafsledge_plain_read_tbody(
        bytes: *const u8,
        count: usize,
        at: usize,
        ty: u8,
        values: *mut [u64; PLAIN_T_VALUES],
    ) -> Outcome;
    /// The same of a reply.
    pub fn sheafsledge_plain_read_rbody(
        bytes: *const u8,
        count: usize,
        at: usize,
        ty: u8,
        values: *mut [u64; PLAIN_R_VALUES],
    ) -> Outcome;
    /// Whether a reply of 9P2000 answers a request of it, by types and tags.
    pub fn sheafsledge_plain_answers(
        request_ty: u8,
        request_tag: Tag,
        reply_ty: u8,
        reply_tag: Tag,
    ) -> bool;
    /// A session before its first frame.
    pub fn sheafsledge_session() -> Session;
    /// Follows the frame at a position of a stretch.
    pub fn sheafsledge_follow(
        s: Session,
        stretch: *const u8,
        count: usize,
        position: usize,
    ) -> Followed;
    /// Writes the path of a fid over the front of the output, and answers the place after it; refused,
    /// the output is as it was.
    pub fn sheafsledge_path(
        out: *mut u8,
        room: usize,
        s: Session,
        fid: u32,
        stretch: *const u8,
        count: usize,
    ) -> Outcome;
    /// Whether a file ends in the trailer of the stretch before it.
    pub fn sheafsledge_sealed(file: *const u8, count: usize) -> bool;
    /// Writes the trailer of a stretch over the front of the output, and answers the place after it;
    /// refused, the output is as it was.
    pub fn sheafsledge_trailer(
        out: *mut u8,
        room: usize,
        stretch: *const u8,
        count: usize,
    ) -> Outcome;
    /// Reads the request of 9P2000.u at the front of the bytes.
    pub fn sheafsledge_unix_read_tframe(
        bytes: *const u8,
        count: usize,
        values: *mut [u64; PLAIN_T_VALUES],
    ) -> Outcome;
    /// Reads the reply of 9P2000.u at the front of the bytes.
    pub fn sheafsledge_unix_read_rframe(
        bytes: *const u8,
        count: usize,
        values: *mut [u64; PLAIN_R_VALUES],
    ) -> Outcome;
    /// Writes a request of 9P2000.u from values whose spans point into the lent bytes.
    pub fn sheafsledge_unix_write_tframe(
        out: *mut u8,
        room: usize,
        lent: *const u8,
        count: usize,
        refusal: u8,
        ty: u8,
        tag: Tag,
        values: *const [u64; PLAIN_T_VALUES],
    ) -> Outcome;
    /// Writes a reply of 9P2000.u from values whose spans point into the lent bytes.
    pub fn sheafsledge_unix_write_rframe(
        out: *mut u8,
        room: usize,
        lent: *const u8,
        count: usize,
        refusal: u8,
        ty: u8,
        tag: Tag,
        values: *const [u64; PLAIN_R_VALUES],
    ) -> Outcome;
    /// Reads the body of a request of 9P2000.u that stands from a place to the end of the bytes, its
    /// header passed over.
    pub fn sheafsledge_unix_read_tbody(
        bytes: *const u8,
        count: usize,
        at: usize,
        ty: u8,
        values: *mut [u64; PLAIN_T_VALUES],
    ) -> Outcome;
    /// The same of a reply.
    pub fn sheafsledge_unix_read_rbody(
        bytes: *const u8,
        count: usize,
        at: usize,
        ty: u8,
        values: *mut [u64; PLAIN_R_VALUES],
    ) -> Outcome;
    /// Whether a reply of 9P2000.u answers a request of it, by types and tags.
    pub fn sheafsledge_unix_answers(
        request_ty: u8,
        request_tag: Tag,
        reply_ty: u8,
        reply_tag: Tag,
    ) -> bool;
    /// The frame at a position of a stretch of any dialect, by its size.
    pub fn sheafsledge_frame_at(bytes: *const u8, count: usize, position: usize) -> Outcome;
    /// Answers 4, the number of the boundary.
    pub fn sheafsledge_boundary_4() -> u32;
}

/// Nothing links without it, whether or not it is called: a library of another boundary has it not.
#[used]
static BOUNDARY_IS_LINKED: unsafe extern "C" fn() -> u32 = sheafsledge_boundary_4;

/// Holds a struct to its size, its alignment and the offset of each field, in bytes.
macro_rules! laid_out {
    ($name:ident: $size:literal, $align:literal; $($field:ident $at:literal),+) => {
        const _: () = {
            use core::mem::{align_of, offset_of, size_of};
            assert!(size_of::<$name>() == $size, concat!(stringify!($name), ": its size"));
            assert!(align_of::<$name>() == $align, concat!(stringify!($name), ": its alignment"));
            $(assert!(
                offset_of!($name, $field) == $at,
                concat!(stringify!($name), ": where ", stringify!($field), " stands")
            );)+
            // A field that is not named above would leave this pattern incomplete.
            const fn all_named(it: $name) {
                let $name { $($field: _),+ } = it;
            }
            let _ = all_named;
        };
    };
}

laid_out!(Outcome: 16, 8; refusal 0, ty 1, tag 2, held 4, place 8);
laid_out!(Packed: 24, 8; refusal 0, entries 8, place 16);
laid_out!(Qid: 16, 8; ty 0, version 4, path 8);
laid_out!(Request: 56, 8; ty 0, new 8, known 16, to 24, old 32, count 34, start 40, len 48);
laid_out!(Places: 4360, 8; older 0, starts 256, lens 2304, used 4352);
laid_out!(Session: 9032, 8; tags 0, requests 512, fids 4096, at 4608, places 4672);
laid_out!(Told: 32, 8; refusal 0, ty 1, tag 2, held 4, place 8, tail 16, fid 24);
laid_out!(Followed: 9064, 8; session 0, told 9032);

/// Holds a type without named fields to its size and alignment, in bytes.
macro_rules! sized {
    ($type:ty: $size:literal, $align:literal) => {
        const _: () = assert!(
            core::mem::size_of::<$type>() == $size && core::mem::align_of::<$type>() == $align,
            concat!(stringify!($type), ": not as the library has it")
        );
    };
}

// The arrays that are lent. The library is compiled for 64 bits.
sized!([u64; T_VALUES]: 80, 8);
sized!([u64; R_VALUES]: 176, 8);
sized!([u64; PLAIN_T_VALUES]: 184, 8);
sized!([u64; PLAIN_R_VALUES]: 176, 8);
sized!([u64; ENTRY_VALUES]: 56, 8);
sized!([u64; QID_VALUES]: 24, 8);
sized!([u64; SPAN_VALUES]: 16, 8);
sized!([u64; PIECE_VALUES]: 16, 8);
sized!([u32; TIME_VALUES]: 8, 4);
sized!([u64; 1]: 8, 8);
sized!([usize; 2]: 16, 8);
sized!(usize: 8, 8);
sized!(*const u8: 8, 8);
sized!(bool: 1, 1);
sized!(Fid: 4, 4);
sized!(Tag: 2, 2);
