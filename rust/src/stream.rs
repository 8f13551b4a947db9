//! Frames from a stream: each by its declared size, whatever it holds and however it arrives.
//!
//! p9's own server resumes after the last field that it knows, so that bytes after that field ran
//! as a second request. Here the next frame begins where the size of this one says, also where a
//! time-out came in the middle: [`Frames`] keeps what it has read.

use alloc::vec;
use alloc::vec::Vec;
use core::{fmt, mem};
use std::io::{self, ErrorKind, Read};

use crate::{Refusal, Tag};

/// A frame's first bytes: its size, its type and its tag.
const HEADER: usize = 7;

/// The first of these: the size.
const SIZE: usize = 4;

const CUT: Broken = Broken::Refused(Refusal::StretchCut);

/// What a stream gave, see [`Frames::next_frame`].
///
/// ```
/// use sheafsledge::stream::{Frames, Next};
/// let mut frames = Frames::new(&b"\x07\0\0\0\x6d\x01\0"[..], 8192);
/// assert_eq!(frames.next_frame()?, Next::Frame(b"\x07\0\0\0\x6d\x01\0"));
/// assert_eq!(frames.next_frame()?, Next::End);
/// # Ok::<(), sheafsledge::stream::Broken>(())
/// ```
#[derive(Clone, Copy, Debug, PartialEq, Eq)]
pub enum Next<'a> {
    /// One whole frame: exactly the bytes that its size declares.
    Frame(&'a [u8]),
    /// A frame that is longer than the msize. The stream goes on after it.
    TooLong(TooLong),
    /// The stream ended between two frames.
    End,
}

/// What is told of a frame that is longer than the msize: enough to answer it.
///
/// ```
/// use sheafsledge::stream::{Frames, Next, TooLong};
/// use sheafsledge::{Rframe, Rlerror, Rmessage, Tag};
/// // A Twrite whose data would be a Tflush, and a Tflush.
/// let tflush = b"\x09\0\0\0\x6c\x06\0\x02\0";
/// let twrite = b"\x20\0\0\0\x76\x05\0\x02\0\0\0\0\0\0\0\0\0\0\0\x09\0\0\0";
/// let bytes = [&twrite[..], tflush, tflush].concat();
/// let mut frames = Frames::new(&bytes[..], 24);
///
/// let Next::TooLong(long) = frames.next_frame()? else { panic!() };
/// assert_eq!(long, TooLong { size: 32, ty: 0x76, tag: Tag(5) });
/// let msg = Rmessage::Lerror(Rlerror { ecode: 90 });
/// let reply = Rframe { tag: long.tag, msg };
/// assert_eq!(frames.next_frame()?, Next::Frame(tflush));
/// assert_eq!(frames.next_frame()?, Next::End, "the data was no frame");
/// # Ok::<(), sheafsledge::stream::Broken>(())
/// ```
#[derive(Clone, Copy, Debug, PartialEq, Eq)]
pub struct TooLong {
    /// How long it says that it is.
    pub size: u32,
    /// Its type.
    pub ty: u8,
    /// The tag that a reply to it bears.
    pub tag: Tag,
}

/// For a log; it is not that the output was too short.
impl fmt::Display for TooLong {
    fn fmt(&self, f: &mut fmt::Formatter) -> fmt::Result {
        let Self { size, ty, tag } = self;
        write!(
            f,
            "a frame of type {ty} and tag {tag} is {size} bytes long, above the msize"
        )
    }
}

impl core::error::Error for TooLong {}

impl From<TooLong> for io::Error {
    fn from(told: TooLong) -> Self {
        Self::new(ErrorKind::InvalidData, told)
    }
}

/// Why there is no frame.
///
/// ```
/// use sheafsledge::stream::{Broken, Frames};
/// use sheafsledge::Refusal;
/// let mut frames = Frames::new(&b"\x07\0\0\0\x6d"[..], 8192);
/// for _ in 0..2 {
///     let Err(Broken::Refused(refusal)) = frames.next_frame() else { panic!() };
///     assert_eq!(refusal, Refusal::StretchCut);
/// }
/// ```
#[derive(Debug)]
pub enum Broken {
    /// 13: a size below 7; 12: the stream ended inside a frame. There is no next frame to be had.
    Refused(Refusal),
    /// The stream could not be read: for now, or for good ([`Broken::goes_on`]).
    Io(io::Error),
}

impl Broken {
    /// Whether the stream only has nothing yet: the error's kind is `WouldBlock` or `TimedOut`.
    /// Then the next call goes on where this one stopped. Else every call answers the same.
    ///
    /// ```
    /// use sheafsledge::stream::Broken;
    /// use sheafsledge::Refusal;
    /// use std::io::ErrorKind;
    /// assert!(Broken::Io(ErrorKind::WouldBlock.into()).goes_on());
    /// assert!(!Broken::Io(ErrorKind::ConnectionReset.into()).goes_on());
    /// assert!(!Broken::Refused(Refusal::StretchCut).goes_on());
    /// ```
    pub fn goes_on(&self) -> bool {
        match self {
            Self::Refused(_) => false,
            Self::Io(error) => matches!(error.kind(), ErrorKind::WouldBlock | ErrorKind::TimedOut),
        }
    }
}

/// The frames of a stream, with what was read of the one that is still arriving.
///
/// ```
/// use sheafsledge::stream::{Frames, Next};
/// use sheafsledge::Tframe;
/// // The accident: a Twrite of one byte, and its copy after the last field, inside the size.
/// let once = *b"\x18\0\0\0\x76\x01\0\x02\0\0\0\0\0\0\0\0\0\0\0\x01\0\0\01";
/// let mut bytes = [once, once].concat();
/// bytes[0] = 48;
/// let mut frames = Frames::new(&bytes[..], 8192);
/// let Next::Frame(frame) = frames.next_frame()? else { panic!() };
/// let read = Tframe::decode(frame)?;
/// assert!(read.frame.msg.is_ok());
/// assert_eq!(frame.len() - read.used, 24, "the copy is a tail");
/// assert_eq!(frames.next_frame()?, Next::End, "and no second request");
/// # Ok::<(), Box<dyn std::error::Error>>(())
/// ```
///
/// No byte is read that does not belong to the frame. A stream for which each call is dear can be
/// read through a `BufReader`, which is kept for as long as the stream.
///
/// There is no way to the stream inside: whoever read from it would take bytes out of a frame. A
/// socket can be lent instead (`&TcpStream` reads too), so that its time-outs can still be set.
/// What was read of a frame goes with its `Frames`, so one is kept for as long as the stream;
/// [`Frames::into_inner`] gives the stream back where that loses nothing.
pub struct Frames<R> {
    stream: R,
    msize: u32,
    /// Has room for a header and for `msize` bytes.
    buffer: Vec<u8>,
    /// How many bytes of the next frame stand in the buffer.
    filled: usize,
    /// How many bytes of a frame that was too long are still in the stream. Where there are any,
    /// nothing of the next frame is there.
    left: usize,
    stopped: Option<Stopped>,
}

/// What every call answers, since the stream has no place any more at which a frame begins.
#[derive(Clone, Copy, Debug, PartialEq, Eq)]
enum Stopped {
    End,
    Refused(Refusal),
    /// An error can't be copied: its kind, and the system's number for it.
    Io(ErrorKind, Option<i32>),
}

/// As [`Next`], a frame by its length in the buffer.
enum Found {
    Frame(usize),
    TooLong(TooLong),
    End,
}

impl<R> Frames<R> {
    /// The frames of a stream that stands before a frame's first byte, none longer than `msize`.
    /// So much is allocated here, once.
    ///
    /// ```
    /// use sheafsledge::stream::{Frames, Next};
    /// let mut frames = Frames::new(std::io::empty(), 8192);
    /// assert_eq!(frames.next_frame()?, Next::End);
    /// # Ok::<(), sheafsledge::stream::Broken>(())
    /// ```
    pub fn new(stream: R, msize: u32) -> Self {
        Self {
            stream,
            msize,
            buffer: vec![0; room(msize)],
            filled: 0,
            left: 0,
            stopped: None,
        }
    }

    /// The longest frame that is given.
    ///
    /// ```
    /// let frames = sheafsledge::stream::Frames::new(std::io::empty(), 8192);
    /// assert_eq!(frames.msize(), 8192);
    /// ```
    pub fn msize(&self) -> u32 {
        self.msize
    }

    /// Sets the longest frame that is given, as a Tversion and its reply agree on it. It allocates
    /// where there was never room for so many bytes.
    ///
    /// It holds from the next call on, also for a frame of which a part was read: that one is
    /// given or told as too long by its whole size. One that was told as too long stays so.
    ///
    /// ```
    /// use sheafsledge::stream::{Frames, Next};
    /// let tflush = *b"\x09\0\0\0\x6c\x01\0\x02\0";
    /// let bytes = [tflush, tflush].concat();
    /// let mut frames = Frames::new(&bytes[..], 8);
    /// assert!(matches!(frames.next_frame()?, Next::TooLong(_)));
    /// frames.set_msize(9);
    /// assert_eq!(frames.next_frame()?, Next::Frame(&tflush));
    /// # Ok::<(), sheafsledge::stream::Broken>(())
    /// ```
    pub fn set_msize(&mut self, msize: u32) {
        if room(msize) > self.buffer.len() {
            // Growing the old one would also copy and clear what holds nothing of a frame.
            let mut buffer = vec![0; room(msize)];
            buffer[..self.filled].copy_from_slice(&self.buffer[..self.filled]);
            self.buffer = buffer;
        }
        self.msize = msize;
    }

    /// The stream, if it stands between two frames or at its end. Else the frames as they are: in
    /// the stream alone, the rest of a frame would be taken for frames.
    ///
    /// ```
    /// use sheafsledge::stream::{Frames, Next};
    /// let bytes = b"\x07\0\0\0\x6d\x01\0\x09\0\0\0\x6c\x01\0\x02\0";
    /// let mut frames = Frames::new(&bytes[..], 8);
    /// assert!(matches!(frames.next_frame()?, Next::Frame(_)));
    /// let mut frames = Frames::new(frames.into_inner().expect("between two"), 8);
    /// assert!(matches!(frames.next_frame()?, Next::TooLong(_)));
    /// assert!(frames.into_inner().is_err(), "two bytes of it are still there");
    /// # Ok::<(), sheafsledge::stream::Broken>(())
    /// ```
    pub fn into_inner(self) -> Result<R, Self> {
        let between = self.filled == 0 && self.left == 0;
        match self.stopped {
            None | Some(Stopped::End) if between => Ok(self.stream),
            _ => Err(self),
        }
    }
}

impl<R: Read> Frames<R> {
    /// Reads on until there is a whole frame, or something else to tell.
    ///
    /// - An error of the kind `WouldBlock` or `TimedOut` is passed on as it is. What was read is
    ///   kept, and the next call goes on there. `Interrupted` is not told: it is read again.
    /// - A frame longer than the msize is told as soon as its first seven bytes are there. The
    ///   next call passes over the rest of it, without a look at those bytes. A server answers
    ///   the tag and goes on, or goes if `size` is more than it wants to wait for.
    /// - The end, a refusal and any other error are final: every further call answers the same
    ///   and reads nothing. Of an error it is then the kind and the system's number that are the
    ///   same.
    ///
    /// ```
    /// use sheafsledge::stream::{Frames, Next};
    /// use std::io::Write;
    /// use std::net::{TcpListener, TcpStream};
    /// # let listener = TcpListener::bind("127.0.0.1:0")?;
    /// # let mut client = TcpStream::connect(listener.local_addr()?)?;
    /// # let (stream, _) = listener.accept()?;
    /// // A time-out in the middle of a Tflush.
    /// client.write_all(b"\x09\0\0\0\x6c\x01\0")?;
    /// stream.set_read_timeout(Some(std::time::Duration::from_millis(1)))?;
    /// let mut frames = Frames::new(&stream, 8192);
    /// let broken = frames.next_frame().expect_err("it is not there yet");
    /// assert!(broken.goes_on());
    ///
    /// client.write_all(b"\x02\0")?;
    /// stream.set_read_timeout(None)?;
    /// assert_eq!(frames.next_frame()?, Next::Frame(b"\x09\0\0\0\x6c\x01\0\x02\0"));
    /// # Ok::<(), std::io::Error>(())
    /// ```
    ///
    /// A frame is lent until the next call, which needs the buffer again:
    ///
    /// ```compile_fail,E0499
    /// let mut frames = sheafsledge::stream::Frames::new(std::io::empty(), 8192);
    /// let first = frames.next_frame();
    /// let second = frames.next_frame();
    /// println!("{first:?} {second:?}");
    /// ```
    pub fn next_frame(&mut self) -> Result<Next<'_>, Broken> {
        if let Some(stopped) = self.stopped {
            return stopped.again();
        }
        // This stays if the stream panics: how far it was read is not known then.
        self.stopped = Some(Stopped::Io(ErrorKind::Other, None));
        let found = self.found();
        self.stopped = Stopped::by(&found);
        Ok(match found? {
            Found::Frame(len) => Next::Frame(&self.buffer[..len]),
            Found::TooLong(told) => Next::TooLong(told),
            Found::End => Next::End,
        })
    }

    /// Each step is left only when it is done, so that a call begins where the last one stopped.
    fn found(&mut self) -> Result<Found, Broken> {
        self.pass_over()?;
        // The size is looked at before the type and the tag are waited for: of a size that no
        // frame has, they may never come.
        if !self.fill(SIZE, HEADER)? {
            return Ok(Found::End);
        }
        let [a, b, c, d, ..] = self.header();
        let size = u32::from_le_bytes([a, b, c, d]);
        let len = size as usize;
        if len < HEADER {
            return Err(Broken::Refused(Refusal::StretchSize));
        }
        self.fill(HEADER, HEADER)?;
        if size > self.msize {
            let [.., ty, low, high] = self.header();
            let tag = Tag(u16::from_le_bytes([low, high]));
            self.left = len - mem::take(&mut self.filled);
            return Ok(Found::TooLong(TooLong { size, ty, tag }));
        }
        self.fill(len, len)?;
        self.filled = 0;
        Ok(Found::Frame(len))
    }

    /// Reads what is left of a frame that was too long, and looks at none of it.
    fn pass_over(&mut self) -> Result<(), Broken> {
        while self.left > 0 {
            let most = self.left.min(self.buffer.len());
            match self.read(0, most)? {
                0 => return Err(CUT),
                count => self.left -= count,
            }
        }
        Ok(())
    }

    /// Reads until `least` bytes of the frame are there, and none past `most`. False if the stream
    /// ended before the frame's first byte.
    fn fill(&mut self, least: usize, most: usize) -> Result<bool, Broken> {
        while self.filled < least {
            match self.read(self.filled, most)? {
                0 if self.filled == 0 => return Ok(false),
                0 => return Err(CUT),
                count => self.filled += count,
            }
        }
        Ok(true)
    }

    /// Reads once, into a part of the buffer.
    fn read(&mut self, from: usize, to: usize) -> Result<usize, Broken> {
        let place = &mut self.buffer[from..to];
        loop {
            match self.stream.read(place) {
                // Bytes that were never read would count as a frame's.
                Ok(count) if count > place.len() => {
                    return Err(Broken::Io(ErrorKind::InvalidData.into()))
                }
                Err(error) if error.kind() == ErrorKind::Interrupted => {}
                read => return read.map_err(Broken::Io),
            }
        }
    }

    fn header(&self) -> [u8; HEADER] {
        let mut header = [0; HEADER];
        header.copy_from_slice(&self.buffer[..HEADER]);
        header
    }
}

/// How long a buffer has to be: a header is read even where no frame is short enough.
fn room(msize: u32) -> usize {
    HEADER.max(msize as usize)
}

impl Stopped {
    fn by(found: &Result<Found, Broken>) -> Option<Self> {
        match found {
            Ok(Found::Frame(_) | Found::TooLong(_)) => None,
            Ok(Found::End) => Some(Self::End),
            Err(broken) if broken.goes_on() => None,
            Err(Broken::Refused(refusal)) => Some(Self::Refused(*refusal)),
            Err(Broken::Io(error)) => Some(Self::Io(error.kind(), error.raw_os_error())),
        }
    }

    fn again(self) -> Result<Next<'static>, Broken> {
        match self {
            Self::End => Ok(Next::End),
            Self::Refused(refusal) => Err(Broken::Refused(refusal)),
            Self::Io(_, Some(number)) => Err(Broken::Io(io::Error::from_raw_os_error(number))),
            Self::Io(kind, None) => Err(Broken::Io(kind.into())),
        }
    }
}

/// Without the bytes, which are many.
impl<R> fmt::Debug for Frames<R> {
    fn fmt(&self, f: &mut fmt::Formatter) -> fmt::Result {
        f.debug_struct("Frames")
            .field("msize", &self.msize)
            .field("filled", &self.filled)
            .field("left", &self.left)
            .field("stopped", &self.stopped)
            .finish_non_exhaustive()
    }
}

impl fmt::Display for Broken {
    fn fmt(&self, f: &mut fmt::Formatter) -> fmt::Result {
        match self {
            Self::Refused(refusal) => refusal.fmt(f),
            Self::Io(error) => error.fmt(f),
        }
    }
}

impl core::error::Error for Broken {}

impl From<Broken> for io::Error {
    fn from(broken: Broken) -> Self {
        match broken {
            Broken::Refused(refusal) => refusal.into(),
            Broken::Io(error) => error,
        }
    }
}
