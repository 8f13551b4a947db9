//! 9P2000.L frames for a server in Rust, read and written by a proved library; those of the older
//! 9P2000 and 9P2000.u have modules of their own, [`plain`] and [`unix`].
//!
//! The types bear the names of p9 0.3.2's protocol module. What is read borrows from the bytes, and
//! a refusal has its number. Nothing is allocated, but for a Twalk of the caller's own names that
//! are longer than 512 bytes together ([`Names::of`]), and a message of an older dialect with several
//! strings that are. Where a frame ends is what its size says:
//! bytes after the last field are a tail, and never another request; [`stream::Frames`] cuts a
//! stream into frames by that, in a buffer that it allocates once, and [`stretch()`] bytes that
//! hold several: [`Listed::fields`] says where each field of theirs stands. The entries of a
//! directory are given by [`Rreaddir::entries`], and [`Rreaddir::pack`] packs them. [`plan_writes`]
//! cuts a large write into Twrites no longer than the msize, and [`pcap`] goes from capture files to
//! stretches and back. [`session`] follows a guest's frames and says which file a fid names. The example `server` shows a directory with these, and is meant to be started
//! from.
//!
//! ```
//! use sheafsledge::{Fid, Names, Rframe, Rmessage, Tag, Tframe, Tmessage, Twalk};
//!
//! let wnames = Names::of(&["dcim", "0001.jpg"])?;
//! let walk = Twalk { fid: Fid(1), newfid: Fid(2), wnames };
//! let mut out = [0; 64];
//! let len = Tframe { tag: Tag(3), msg: Ok(Tmessage::Walk(walk)) }.encode(&mut out)?;
//!
//! let read = Tframe::decode(&out[..len])?;
//! assert_eq!(read.used, len);
//! let Ok(Tmessage::Walk(walk)) = read.frame.msg else { panic!() };
//! assert_eq!(walk.wnames.iter().last().unwrap(), "0001.jpg");
//!
//! let reply = Rframe { tag: read.frame.tag, msg: Rmessage::Flush };
//! assert_eq!(reply.encode(&mut out)?, 7);
//! # Ok::<(), sheafsledge::Refusal>(())
//! ```
//!
//! `unsafe` stands in two places, each with the promise that it rests on: the calls of the library
//! (`ffi`), and the one function that makes a `&str` of bytes which the library accepted (`text` in
//! `fields`): a frame's string, a directory entry's name, and a walk's names, in order or by their
//! number. It looks at the count that stands before a string, and at its UTF-8 where assertions are.
//!
//! It is for x86-64 Linux alone: the library is compiled for that, and hands over its arguments as C
//! does there. Without the feature `std`, which is on by default, it needs `core` and `alloc` alone,
//! and has no [`stream`], no `encode_to` and no `io::Error`.

#![no_std]
#![deny(unsafe_code)]
#![warn(missing_docs)]

extern crate alloc;
#[cfg(feature = "std")]
extern crate std;

#[macro_use]
mod about;
mod data;
mod dirents;
#[allow(unsafe_code)]
mod ffi;
mod fields;
mod frames;
mod ids;
mod older;
pub mod pcap;
mod places;
mod plans;
#[macro_use]
mod records;
pub mod plain;
mod refusal;
pub mod session;
#[cfg(feature = "std")]
pub mod stream;
mod stretch;
mod tables;
mod text;
pub mod unix;
mod walks;

use sheafsledge_sys as boundary;

pub use boundary::Qid;
pub use data::Data;
pub use dirents::{Dirent, Dirents, Packed};
pub use frames::{Decoded, Make, Rframe, Tframe};
pub use ids::{Fid, Gid, Tag};
pub use places::{FieldAt, Value};
pub use plans::{accepts_plan, plan_writes, twrites, Twrites};
pub use records::*;
pub use refusal::{Refusal, Sentence};
pub use session::Session;
pub use stretch::{answers, stretch, Mark, Stop};
pub use tables::{write_rwalk, write_twalk, WalkHead};
pub use text::Text;
pub use walks::{Names, NamesIter, Qids, QidsIter};

/// What is the same in every dialect, for code that takes frames of any: the root's, [`plain`]'s and
/// [`unix`]'s types of these names are made of them.
pub mod any {
    pub use crate::places::Fields;
    pub use crate::stretch::{Body, Held, Listed, Stretch};
}

/// What a frame of 9P2000.L holds.
pub type Body<'a> = stretch::Body<Tmessage<'a>, Rmessage<'a>>;
/// A frame of a stretch of 9P2000.L.
pub type Listed<'a> = stretch::Listed<Body<'a>>;
/// The frames of a stretch of 9P2000.L, see [`stretch()`].
pub type Stretch<'a> = stretch::Stretch<'a, Body<'a>>;
/// The fields of a listed frame of 9P2000.L, see [`Listed::fields`].
pub type Fields<'a> = places::Fields<'a, Body<'a>>;

/// Whether bytes are UTF-8 by RFC 3629, as the strings of a frame have to be.
///
/// ```
/// assert!(sheafsledge::is_utf8("höhe".as_bytes()));
/// assert!(!sheafsledge::is_utf8(b"\xed\xa0\x80"), "a surrogate");
/// ```
pub fn is_utf8(bytes: &[u8]) -> bool {
    ffi::is_utf8(bytes)
}

/// The example there is tried, too.
#[cfg(doctest)]
#[doc = include_str!("../README.md")]
struct Readme;
