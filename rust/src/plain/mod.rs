//! The frames of 9P2000, the older dialect that instruments speak.
//!
//! The path names the dialect: what stands here has the names and the methods that the crate's root has
//! for 9P2000.L. The messages that are the same in both are the same records, so that a [`Twalk`] of one
//! is a [`Twalk`] of the other. [`Tauth`] and [`Tattach`] end before `n_uname`; an error is an [`Rerror`]
//! with words; files are opened and made by [`Topen`] and [`Tcreate`]; and what there is to know of a file
//! is a [`Stat`], asked for by [`Tstat`] and changed by [`Twstat`].
//!
//! ```
//! use sheafsledge::plain::{Rerror, Rframe, Rmessage, Tattach, Tframe, Tmessage};
//! use sheafsledge::{Fid, Tag, Text};
//!
//! let (uname, aname) = (Text::new("glenda")?, Text::default());
//! let attach = Tattach { fid: Fid(1), afid: Fid::NONE, uname, aname };
//! let mut out = [0; 64];
//! let frame = Tframe { tag: Tag(1), msg: Ok(Tmessage::Attach(attach)) };
//! let len = frame.encode(&mut out)?;
//! assert_eq!(len, 25);
//! assert_eq!(Tframe::decode(&out[..len])?.frame, frame);
//!
//! let error = Rerror { ename: Text::new("no such user")? };
//! let reply = Rframe { tag: Tag(1), msg: Rmessage::Error(error) };
//! assert_eq!(reply.encode(&mut out)?, 21);
//! # Ok::<(), sheafsledge::Refusal>(())
//! ```
//!
//! The caller names the dialect, and the version string of a Tversion is never looked at. A type that
//! 9P2000.L has for itself is unknown here, an Rlerror too:
//!
//! ```
//! let rlerror = b"\x0b\0\0\0\x07\x01\0\x02\0\0\0";
//! assert!(sheafsledge::Rframe::decode(rlerror).is_ok());
//! let refusal = sheafsledge::plain::Rframe::decode(rlerror).unwrap_err();
//! assert_eq!(refusal, sheafsledge::Refusal::UnknownType);
//! ```

mod frames;
mod records;

use crate::stretch::held;
use crate::{ffi, places, stretch as stretches, Mark};

pub use crate::{
    Rattach, Rauth, Rread, Rversion, Rwalk, Rwrite, Tclunk, Tflush, Tread, Tremove, Tversion,
    Twalk, Twrite,
};
pub use frames::{Rframe, Tframe};
pub use records::*;

/// What a frame of 9P2000 holds.
pub type Body<'a> = stretches::Body<Tmessage<'a>, Rmessage<'a>>;
/// A frame of a stretch of 9P2000.
pub type Listed<'a> = stretches::Listed<Body<'a>>;
/// The frames of a stretch of 9P2000, see [`stretch()`].
pub type Stretch<'a> = stretches::Stretch<'a, Body<'a>>;
/// The fields of a listed frame of 9P2000, see [`Listed::fields`](crate::Listed::fields).
pub type Fields<'a> = places::Fields<'a, Body<'a>>;

held!(Tmessage ffi::plain::read_tbody, Rmessage ffi::plain::read_rbody);

/// The frames of a stretch of 9P2000 in their order, as [`crate::stretch()`] gives those of 9P2000.L.
///
/// ```
/// use sheafsledge::plain::{stretch, Body, Rerror, Rmessage};
/// use sheafsledge::{Tag, Text};
/// let mut frames = stretch(b"\x0b\0\0\0\x6b\x03\0\x02\0no");
/// let error = frames.next().unwrap()?;
/// assert_eq!((error.at, error.ty, error.tag, error.tail), (0, 107, Tag(3), 0));
/// let ename = Text::from_static("no");
/// assert_eq!(error.body, Body::Reply(Ok(Rmessage::Error(Rerror { ename }))));
/// assert_eq!(frames.next(), None);
/// # Ok::<(), sheafsledge::Stop>(())
/// ```
pub fn stretch(bytes: &[u8]) -> Stretch<'_> {
    Stretch::of(bytes)
}

/// Whether a reply answers a request: the tags are equal, the request's type is known in 9P2000, and the
/// reply's is that number plus one, or 107, an Rerror. Bodies are not looked at.
///
/// ```
/// use sheafsledge::{plain::answers, Mark, Tag};
/// let tstat = Mark { ty: 124, tag: Tag(1) };
/// assert!(answers(tstat, Mark { ty: 125, tag: Tag(1) }));
/// assert!(answers(tstat, Mark { ty: 107, tag: Tag(1) }));
/// assert!(!answers(tstat, Mark { ty: 7, tag: Tag(1) }));
/// ```
pub fn answers(request: Mark, reply: Mark) -> bool {
    ffi::plain::answers(request, reply)
}
