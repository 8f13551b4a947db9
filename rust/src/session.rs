//! Which file a fid names: one guest's frames, followed from the first on.
//!
//! A [`Session`] keeps what the frames of one guest leave: the open requests, the fids, and the places
//! that fids were walked to. [`Session::step`] follows one frame more, and [`Session::path`] says where a
//! fid is. Names are kept as places in the stretch, so each call is lent the stretch from its first
//! byte on; a live log may grow at its end between two calls.
//!
//! A [`Recording`] is a stretch and a trailer of twelve bytes, which tells whether it is whole.
//!
//! ```
//! use sheafsledge::session::{seal, Recording};
//! use sheafsledge::Fid;
//!
//! let stretch = [
//!     // Tattach of fid 0, Rattach; Twalk of fid 0 to fid 1 by two names, Rwalk of two qids.
//!     &b"\x18\0\0\0\x68\x01\0\0\0\0\0\xff\xff\xff\xff\x01\0g\0\0\0\0\0\0"[..],
//!     b"\x14\0\0\0\x69\x01\0\x80\0\0\0\0\0\0\0\0\0\0\0\0",
//!     b"\x1e\0\0\0\x6e\x01\0\0\0\0\0\x01\0\0\0\x02\0\x04\0dcim\x05\0a.jpg",
//!     b"\x23\0\0\0\x6f\x01\0\x02\0",
//!     &[0; 26],
//! ]
//! .concat();
//! let file = [&stretch[..], &seal(&stretch)?].concat();
//!
//! let recording = Recording::open(&file)?;
//! let mut steps = recording.steps();
//! for step in steps.by_ref() {
//!     assert_eq!(step?.refusal, None);
//! }
//! let mut room = [0; 64];
//! assert_eq!(steps.path(Fid(1), &mut room)?, b"/dcim/a.jpg");
//! # Ok::<(), Box<dyn std::error::Error>>(())
//! ```

use core::fmt;
use core::iter::FusedIterator;

use crate::{boundary, ffi, stretch, Fid, Refusal, Stop, Tag};

/// How many bytes a trailer has.
pub const TRAILER: usize = 12;

/// The record of one guest's session, with room for 64 open requests, 64 fids and 256 places.
///
/// A tag or fid that was freed makes room again, places only with an Rversion. The record is some nine
/// kilobytes, all in place.
#[derive(Clone, PartialEq, Eq)]
pub struct Session {
    record: boundary::Session,
}

/// A frame that a session has followed.
#[derive(Clone, Copy, Debug, PartialEq, Eq)]
pub struct Step {
    /// Where it starts in the stretch.
    pub at: usize,
    /// How long it is.
    pub size: usize,
    /// Its type, known or not.
    pub ty: u8,
    /// What joins a reply to its request.
    pub tag: Tag,
    /// Why it is refused, by the codec or by the session: then it has changed nothing.
    pub refusal: Option<Refusal>,
    /// How many bytes stand after its last field; 0 where it is refused.
    pub tail: usize,
    /// The fid that it is about, if it is accepted: a request's first, or the one that a reply gives or
    /// moves.
    pub fid: Option<Fid>,
    /// Where the next one starts.
    pub next: usize,
}

impl Session {
    /// A session before its first frame.
    pub fn new() -> Self {
        let record = ffi::session();
        Session { record }
    }

    /// Follows the frame at a position of the stretch; none where the stretch ends there.
    ///
    /// Refusals of the session are 20 to 24: the request's tag is open, the reply answers no open
    /// request, a fid has to be new and is in use, a fid has to be known and is not, a table is full.
    ///
    /// ```
    /// use sheafsledge::{Refusal, Session, Tag};
    /// let (tclunk, rclunk) = (b"\x0b\0\0\0\x78\x05\0\x07\0\0\0", b"\x07\0\0\0\x79\x05\0");
    /// let stretch = [&tclunk[..], rclunk].concat();
    /// let mut session = Session::new();
    ///
    /// let step = session.step(&stretch, 0)?.unwrap();
    /// assert_eq!((step.ty, step.tag, step.refusal), (120, Tag(5), Some(Refusal::FidUnknown)));
    /// let step = session.step(&stretch, step.next)?.unwrap();
    /// assert_eq!((step.ty, step.refusal), (121, Some(Refusal::NoRequest)));
    /// assert_eq!(session.step(&stretch, step.next)?, None);
    /// # Ok::<(), sheafsledge::Stop>(())
    /// ```
    pub fn step(&mut self, stretch: &[u8], position: usize) -> Result<Option<Step>, Stop> {
        let told = ffi::follow(&mut self.record, stretch, position);
        if told.held {
            return Ok(Some(Step::of(told, stretch, position)));
        }
        match Refusal::of(told.refusal, told.place) {
            Some(refusal) => Err(Stop {
                at: told.place,
                refusal,
            }),
            None => Ok(None),
        }
    }

    /// Writes the path of a fid over the first bytes of `out`, and gives these: of a root nothing, of
    /// any other place `/` and the name by which it was reached, after the path of the place that it was
    /// reached from. It is lent the stretch that the frames were in.
    ///
    /// Refused, `out` is as it was: with 23 if the fid is unknown, then with 11 if there is less room.
    pub fn path<'o>(
        &self,
        fid: Fid,
        stretch: &[u8],
        out: &'o mut [u8],
    ) -> Result<&'o [u8], Refusal> {
        let len = ffi::path(out, &self.record, fid.0, stretch)?;
        Ok(&out[..len])
    }
}

impl Default for Session {
    fn default() -> Self {
        Session::new()
    }
}

impl fmt::Debug for Session {
    fn fmt(&self, f: &mut fmt::Formatter<'_>) -> fmt::Result {
        let taken = |keys: &[u64]| {
            keys.iter()
                .filter(|key| **key <= u64::from(u32::MAX))
                .count()
        };
        f.debug_struct("Session")
            .field("requests", &taken(&self.record.tags))
            .field("fids", &taken(&self.record.fids))
            .field("places", &self.record.places.used)
            .finish_non_exhaustive()
    }
}

impl Step {
    fn of(told: boundary::Told, bytes: &[u8], at: usize) -> Self {
        Step {
            at,
            size: told.place - at,
            ty: told.ty,
            tag: Tag(told.tag),
            refusal: match told.refusal {
                0 => None,
                number => refused(number, bytes, at),
            },
            tail: told.tail,
            fid: u32::try_from(told.fid).ok().map(Fid),
            next: told.place,
        }
    }
}

/// The session answers by numbers. Where a text is wrong, its frame is read again for the place.
#[cold]
fn refused(number: u8, bytes: &[u8], at: usize) -> Option<Refusal> {
    match number {
        5 | 6 => stretch::at(bytes, at).and_then(|frame| frame.body.refusal()),
        _ => Refusal::of(number, 0),
    }
}

/// A stretch and its trailer: the bytes of the stretch, its frames, and the position of the last one, 0
/// if there is none, each a number of four bytes.
#[derive(Clone, Copy, Debug, PartialEq, Eq)]
pub struct Recording<'a> {
    stretch: &'a [u8],
}

impl<'a> Recording<'a> {
    /// Refused with 19 if the file has no trailer, or if the stretch before it does not read to its end
    /// with these numbers.
    pub fn open(file: &'a [u8]) -> Result<Self, Refusal> {
        if !ffi::sealed(file) {
            return Err(Refusal::Trailer);
        }
        let stretch = &file[..file.len() - TRAILER];
        Ok(Recording { stretch })
    }

    /// Its frames.
    pub fn stretch(&self) -> &'a [u8] {
        self.stretch
    }

    /// Its frames, followed by a session.
    pub fn steps(&self) -> Steps<'a> {
        steps(self.stretch)
    }
}

/// The trailer of a stretch: put after it, it makes a [`Recording`].
///
/// Refused with 12 or 13 if the stretch breaks off, and with 19 if it has more than 4,294,967,295
/// bytes, which no trailer can tell.
///
/// ```
/// use sheafsledge::{session, Refusal};
/// let frame = [7, 0, 0, 0, 121, 5, 0];
/// assert_eq!(session::seal(&frame)?, [7, 0, 0, 0, 1, 0, 0, 0, 0, 0, 0, 0]);
/// assert_eq!(session::seal(&frame[..6]).unwrap_err().refusal, Refusal::StretchCut);
/// # Ok::<(), sheafsledge::Stop>(())
/// ```
pub fn seal(stretch: &[u8]) -> Result<[u8; TRAILER], Stop> {
    let mut trailer = [0; TRAILER];
    ffi::trailer(&mut trailer, stretch).map(|_| trailer)
}

/// The frames of a stretch, followed by a session. Where the stretch breaks off, the last item says so.
pub fn steps(stretch: &[u8]) -> Steps<'_> {
    Steps {
        session: Session::new(),
        stretch,
        position: Some(0),
    }
}

/// The frames of a stretch as a session follows them, see [`steps`].
#[derive(Clone, Debug)]
pub struct Steps<'a> {
    session: Session,
    stretch: &'a [u8],
    /// None after the end, and after a refusal of the stretch.
    position: Option<usize>,
}

impl Steps<'_> {
    /// The session, after the frames that were given.
    pub fn session(&self) -> &Session {
        &self.session
    }

    /// The path of a fid after these frames, as [`Session::path`] gives it.
    pub fn path<'o>(&self, fid: Fid, out: &'o mut [u8]) -> Result<&'o [u8], Refusal> {
        self.session.path(fid, self.stretch, out)
    }
}

impl Iterator for Steps<'_> {
    type Item = Result<Step, Stop>;

    fn next(&mut self) -> Option<Self::Item> {
        let step = self.session.step(self.stretch, self.position.take()?);
        if let Ok(Some(step)) = step {
            self.position = Some(step.next);
        }
        step.transpose()
    }
}

impl FusedIterator for Steps<'_> {}
