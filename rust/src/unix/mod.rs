//! The frames of 9P2000.u, which has 9P2000's messages with what Unix asks for beside them.
//!
//! The path names the dialect: what stands here has the names and the methods that [`plain`](crate::plain)
//! has for 9P2000. What is the same in both is the same record, and so are [`Tauth`] and [`Tattach`] those of
//! 9P2000.L, which end with `n_uname` too. Of its own are an [`Rerror`] with a number beside its words, a
//! [`Tcreate`] with an extension, and a longer [`Stat`], with an extension and the numbers of its users.
//!
//! ```
//! use sheafsledge::unix::{Rframe, Rmessage, Tattach, Tframe, Tmessage};
//! use sheafsledge::{Fid, Tag, Text};
//!
//! let (uname, aname) = (Text::new("glenda")?, Text::default());
//! let attach = Tattach { fid: Fid(1), afid: Fid::NONE, uname, aname, n_uname: 1000 };
//! let mut out = [0; 64];
//! let frame = Tframe { tag: Tag(1), msg: Ok(Tmessage::Attach(attach)) };
//! let len = frame.encode(&mut out)?;
//! assert_eq!(len, 29);
//! assert_eq!(Tframe::decode(&out[..len])?.frame, frame);
//! # Ok::<(), sheafsledge::Refusal>(())
//! ```
//!
//! The caller names the dialect, and the version string of a Tversion is never looked at. Read as 9P2000, a
//! Tattach of 9P2000.u gives the same fields with four more bytes of tail; read as 9P2000.u, one of 9P2000
//! without a tail is short. A stat of either is refused by the other:
//!
//! ```
//! use sheafsledge::{plain, unix, Refusal};
//! let bytes = b"\x14\0\0\0\x68\x01\0\x01\0\0\0\xff\xff\xff\xff\x01\0g\0\0";
//! assert!(plain::Tframe::decode(bytes)?.frame.msg.is_ok());
//! assert_eq!(unix::Tframe::decode(bytes)?.frame.msg, Err(Refusal::Short));
//! # Ok::<(), sheafsledge::Refusal>(())
//! ```

mod frames;
mod records;

use crate::stretch::held;
use crate::{ffi, places, stretch as stretches, Mark};

pub use crate::plain::{Rcreate, Ropen, Topen, Tstat};
pub use crate::{
    Rattach, Rauth, Rread, Rversion, Rwalk, Rwrite, Tattach, Tauth, Tclunk, Tflush, Tread, Tremove,
    Tversion, Twalk, Twrite,
};
pub use frames::{Rframe, Tframe};
pub use records::*;

/// What a frame of 9P2000.u holds.
pub type Body<'a> = stretches::Body<Tmessage<'a>, Rmessage<'a>>;
/// A frame of a stretch of 9P2000.u.
pub type Listed<'a> = stretches::Listed<Body<'a>>;
/// The frames of a stretch of 9P2000.u, see [`stretch()`].
pub type Stretch<'a> = stretches::Stretch<'a, Body<'a>>;
/// The fields of a listed frame of 9P2000.u, see [`Listed::fields`](crate::Listed::fields).
pub type Fields<'a> = places::Fields<'a, Body<'a>>;

held!(Tmessage ffi::unix::read_tbody, Rmessage ffi::unix::read_rbody);

/// The frames of a stretch of 9P2000.u in their order, as [`crate::stretch()`] gives those of 9P2000.L.
///
/// ```
/// use sheafsledge::unix::{stretch, Body, Rerror, Rmessage};
/// use sheafsledge::{Tag, Text};
/// let mut frames = stretch(b"\x0f\0\0\0\x6b\x03\0\x02\0no\x02\0\0\0");
/// let error = frames.next().unwrap()?;
/// assert_eq!((error.at, error.ty, error.tag, error.tail), (0, 107, Tag(3), 0));
/// let (ename, errno) = (Text::from_static("no"), 2);
/// assert_eq!(error.body, Body::Reply(Ok(Rmessage::Error(Rerror { ename, errno }))));
/// assert_eq!(frames.next(), None);
/// # Ok::<(), sheafsledge::Stop>(())
/// ```
pub fn stretch(bytes: &[u8]) -> Stretch<'_> {
    Stretch::of(bytes)
}

/// Whether a reply answers a request, as [`crate::plain::answers`] says in 9P2000: both know the same types.
///
/// ```
/// use sheafsledge::{unix::answers, Mark, Tag};
/// let tcreate = Mark { ty: 114, tag: Tag(1) };
/// assert!(answers(tcreate, Mark { ty: 115, tag: Tag(1) }));
/// assert!(answers(tcreate, Mark { ty: 107, tag: Tag(1) }));
/// assert!(!answers(tcreate, Mark { ty: 7, tag: Tag(1) }));
/// ```
pub fn answers(request: Mark, reply: Mark) -> bool {
    ffi::unix::answers(request, reply)
}
