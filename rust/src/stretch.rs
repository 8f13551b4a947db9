//! Frames back to back: a recording, or a buffer that holds several. And which reply answers which
//! request.

use core::fmt;
use core::iter::FusedIterator;
use core::marker::PhantomData;

use crate::boundary::Outcome;
use crate::fields::Taken;
use crate::places::Named;
use crate::records::Onward;
use crate::{ffi, Refusal, Rmessage, Tag, Tmessage};

/// What a frame holds: a request if its type is even, else a reply.
#[derive(Clone, Copy, Debug, PartialEq, Eq)]
pub enum Body<T, R> {
    /// A request, or why it can't be read.
    Request(Result<T, Refusal>),
    /// A reply, or why it can't be read.
    Reply(Result<R, Refusal>),
}

impl<T, R> Body<T, R> {
    /// Why it can't be read, if it can't.
    #[inline(always)]
    pub fn refusal(&self) -> Option<Refusal> {
        match self {
            Self::Request(msg) => msg.as_ref().err().copied(),
            Self::Reply(msg) => msg.as_ref().err().copied(),
        }
    }
}

/// What the frames of a dialect hold: a [`Body`] of its two enums.
pub trait Held<'a>: Copy {
    /// That of a whole frame, and its tail.
    #[doc(hidden)]
    fn read(frame: Unread<'a>) -> (Self, usize);
    /// Why it can't be read, if it can't.
    fn refusal(&self) -> Option<Refusal>;
    /// The field of that number, from 0 on, of a message that was read.
    #[doc(hidden)]
    fn field(&self, number: usize) -> Option<Named<'a>>;
    /// What a type is called; none if it is unknown.
    fn name_of(ty: u8) -> Option<&'static str>;
}

/// A dialect's two enums, and the calls that read the values of each.
macro_rules! held {
    ($t:ident $read_t:path, $r:ident $read_r:path) => {
        impl<'a> $crate::stretch::Held<'a> for $crate::stretch::Body<$t<'a>, $r<'a>> {
            #[inline(always)]
            fn read(frame: $crate::stretch::Unread<'a>) -> (Self, usize) {
                match frame.ty % 2 {
                    0 => frame.body(Self::Request, $read_t, $t::take),
                    _ => frame.body(Self::Reply, $read_r, $r::take),
                }
            }

            #[inline(always)]
            fn refusal(&self) -> Option<$crate::Refusal> {
                $crate::stretch::Body::refusal(self)
            }

            fn field(&self, number: usize) -> Option<$crate::places::Named<'a>> {
                match self {
                    Self::Request(msg) => msg.as_ref().ok()?.field(number),
                    Self::Reply(msg) => msg.as_ref().ok()?.field(number),
                }
            }

            fn name_of(ty: u8) -> Option<&'static str> {
                $t::name_of(ty).or_else(|| $r::name_of(ty))
            }
        }
    };
}

pub(crate) use held;

held!(Tmessage ffi::read_tbody, Rmessage ffi::read_rbody);

/// A frame of a stretch.
///
/// Positions count from the stretch's first byte: `at`, `next`, the byte that a refusal 5 or 6 of the
/// body tells of, and all ranges. The strings and the data of the body are slices of the stretch.
/// `size` and `tail` are numbers of bytes, and no positions.
#[derive(Clone, Copy, Debug, PartialEq, Eq)]
pub struct Listed<B> {
    /// Where it starts in the stretch: its position.
    pub at: usize,
    /// How long it says that it is, and is.
    pub size: usize,
    /// Its type, known or not.
    pub ty: u8,
    /// What joins a reply to its request.
    pub tag: Tag,
    /// What it holds.
    pub body: B,
    /// How many bytes stand after its last field; 0 where the body is refused.
    pub tail: usize,
    /// Where the next one starts.
    pub next: usize,
}

impl<B> Listed<B> {
    /// Where it starts in the stretch, as `at` says. A frame that is read alone has position 0.
    pub fn position(&self) -> usize {
        self.at
    }

    /// What it is paired by, also where its body is refused.
    pub fn mark(&self) -> Mark {
        let (ty, tag) = (self.ty, self.tag);
        Mark { ty, tag }
    }
}

/// Where a stretch breaks off: 12 where it is cut, 13 at a size that no frame has.
#[derive(Clone, Copy, Debug, PartialEq, Eq)]
pub struct Stop {
    /// The position of what is no frame.
    pub at: usize,
    /// Why it is none.
    pub refusal: Refusal,
}

/// The frames of a stretch in their order. Where the stretch breaks off, the last item says so.
///
/// ```
/// use sheafsledge::{stretch, Body, Refusal, Stop, Tag, Tflush, Tmessage};
/// // A Tflush with a tail of two bytes, a frame of no known type, and the start of another.
/// let bytes = b"\x0b\0\0\0\x6c\x01\0\x02\0\xaa\xbb\x07\0\0\0\x6a\x05\0\x09\0\0\0\x6c";
/// let mut frames = stretch(bytes);
///
/// let flush = frames.next().unwrap()?;
/// assert_eq!((flush.at, flush.size, flush.tag, flush.tail), (0, 11, Tag(1), 2));
/// assert_eq!(flush.body, Body::Request(Ok(Tmessage::Flush(Tflush { oldtag: Tag(2) }))));
///
/// let unknown = frames.next().unwrap()?;
/// assert_eq!((unknown.at, unknown.ty, unknown.tag), (11, 106, Tag(5)));
/// assert_eq!(unknown.body, Body::Request(Err(Refusal::UnknownType)));
///
/// assert_eq!(frames.next(), Some(Err(Stop { at: 18, refusal: Refusal::StretchCut })));
/// assert_eq!(frames.next(), None);
/// # Ok::<(), sheafsledge::Stop>(())
/// ```
///
/// What is given borrows from the bytes, and cannot outlive them:
///
/// ```compile_fail,E0597
/// let frame = {
///     let bytes = vec![7, 0, 0, 0, 109, 1, 0];
///     sheafsledge::stretch(&bytes).next()
/// };
/// println!("{frame:?}");
/// ```
pub fn stretch(bytes: &[u8]) -> crate::Stretch<'_> {
    Stretch::of(bytes)
}

/// The frame at a position; none where there is none.
pub(crate) fn at(bytes: &[u8], position: usize) -> Option<crate::Listed<'_>> {
    let mut frames = Stretch::of(bytes);
    frames.position = Some(position);
    frames.next()?.ok()
}

/// The frames of a stretch, see [`stretch()`](crate::stretch()).
#[derive(Clone, Copy, Debug)]
pub struct Stretch<'a, B> {
    bytes: &'a [u8],
    /// None after the end, and after a refusal.
    position: Option<usize>,
    held: PhantomData<B>,
}

impl<'a, B> Stretch<'a, B> {
    pub(crate) fn of(bytes: &'a [u8]) -> Self {
        let (position, held) = (Some(0), PhantomData);
        Stretch {
            bytes,
            position,
            held,
        }
    }
}

impl<'a, B: Held<'a>> Iterator for Stretch<'a, B> {
    type Item = Result<Listed<B>, Stop>;

    #[inline]
    fn next(&mut self) -> Option<Self::Item> {
        let at = self.position.take()?;
        let step = ffi::frame_at(self.bytes, at);
        if let Some(refusal) = Refusal::of(step.refusal, step.place) {
            let at = step.place;
            return Some(Err(Stop { at, refusal }));
        }
        if !step.held {
            return None;
        }
        let next = step.place;
        self.position = Some(next);
        let (ty, tag, size) = (step.ty, Tag(step.tag), next - at);
        let bytes = &self.bytes[..next];
        let frame = Unread {
            bytes,
            at,
            size,
            ty,
        };
        let (body, tail) = B::read(frame);
        // Put beside the body once: made in each of the arms that make a message, it would be carried
        // out of every one of them.
        Some(Ok(Listed {
            at,
            size,
            ty,
            tag,
            body,
            tail,
            next,
        }))
    }
}

/// A whole frame whose body is still to be read.
pub struct Unread<'a> {
    /// The stretch, up to where the frame ends.
    bytes: &'a [u8],
    at: usize,
    size: usize,
    pub(crate) ty: u8,
}

impl<'a> Unread<'a> {
    /// What it holds and its tail, by what reads the values of its direction and what makes a message
    /// of them.
    #[inline(always)]
    pub(crate) fn body<M, B, const N: usize>(
        self,
        held: impl FnOnce(Result<M, Refusal>) -> B,
        read: impl FnOnce(&[u8], usize, u8, &mut [u64; N]) -> Outcome,
        take: impl FnOnce(u8, &mut Taken<'a, '_>, Alone) -> Result<M, Refusal>,
    ) -> (B, usize) {
        let Self {
            bytes,
            at,
            size,
            ty,
        } = self;
        let mut values = [0; N];
        let told = read(bytes, at, ty, &mut values);
        let body = held(match Refusal::of(told.refusal, told.place) {
            Some(refusal) => Err(refusal),
            None => {
                let (values, frame) = (values.iter(), bytes);
                take(ty, &mut Taken { values, frame }, Alone)
            }
        });
        let tail = match told.refusal {
            0 => size - told.place,
            _ => 0,
        };
        (body, tail)
    }
}

/// Nothing stands beside a message in the arm that makes it.
pub struct Alone;

impl<M> Onward<M> for Alone {
    type Answer = Result<M, Refusal>;

    #[inline(always)]
    fn on(self, msg: Result<M, Refusal>) -> Self::Answer {
        msg
    }
}

impl<'a, B: Held<'a>> FusedIterator for Stretch<'a, B> {}

impl fmt::Display for Stop {
    fn fmt(&self, f: &mut fmt::Formatter) -> fmt::Result {
        write!(f, "at byte {}: {}", self.at, self.refusal)
    }
}

impl core::error::Error for Stop {}

#[cfg(feature = "std")]
impl From<Stop> for std::io::Error {
    fn from(stop: Stop) -> Self {
        Self::new(stop.refusal.kind(), stop)
    }
}

/// What a request and a reply are paired by.
#[derive(Clone, Copy, Debug, PartialEq, Eq)]
pub struct Mark {
    /// The type.
    pub ty: u8,
    /// The tag.
    pub tag: Tag,
}

/// Whether a reply answers a request: the tags are equal, the request's type is known, and the
/// reply's is that number plus one, or 7, an Rlerror. Bodies are not looked at.
///
/// ```
/// use sheafsledge::{answers, Mark, Tag};
/// let tflush = Mark { ty: 108, tag: Tag(1) };
/// assert!(answers(tflush, Mark { ty: 109, tag: Tag(1) }));
/// assert!(answers(tflush, Mark { ty: 7, tag: Tag(1) }));
/// assert!(!answers(tflush, Mark { ty: 109, tag: Tag(2) }));
/// ```
pub fn answers(request: Mark, reply: Mark) -> bool {
    ffi::answers(request, reply)
}
