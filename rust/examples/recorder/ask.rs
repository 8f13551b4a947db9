//! Asks a server for 9P2000.u, and goes on in what it answers: that, or 9P2000, which a server may say
//! instead.

use std::io::{self, Error, ErrorKind, Read, Write};

use sheafsledge::plain::{self, Tstat};
use sheafsledge::stream::{Frames, Next};
use sheafsledge::{unix, Fid, Refusal, Tag, Tclunk, Text, Tversion};

use crate::words::agreed;

/// As long as a frame may be.
const MSIZE: u32 = 8192;

/// The fid of the root.
const ROOT: Fid = Fid(0);

/// By name alone: 9P2000 has no number for a user.
const USER: Text = Text::from_static("nobody");

/// What a client sends whose user has no number.
const NO_NUMBER: u32 = u32::MAX;

/// The frames of both sides, in their order: the version, the root, its stat. A server that answers any other
/// version is asked nothing more.
pub fn exchange(replies: impl Read, requests: impl Write) -> io::Result<Vec<u8>> {
    let replies = Frames::new(replies, MSIZE);
    let mut talk = Talk {
        replies,
        requests,
        frames: Vec::new(),
    };
    talk.ask(&version()?)?;
    let attach = match agreed(&talk.frames) {
        Some("9P2000.u") => unix_attach()?,
        Some("9P2000") => plain_attach()?,
        _ => return Ok(talk.frames),
    };
    // Those that follow are the same in both.
    let stat = plain::Tmessage::Stat(Tstat { fid: ROOT });
    let clunk = plain::Tmessage::Clunk(Tclunk { fid: ROOT });
    for request in [attach, written(Tag(1), stat)?, written(Tag(1), clunk)?] {
        talk.ask(&request)?;
    }
    Ok(talk.frames)
}

fn version() -> Result<Vec<u8>, Refusal> {
    let (msize, version) = (MSIZE, Text::from_static("9P2000.u"));
    let version = plain::Tmessage::Version(Tversion { msize, version });
    written(Tag(u16::MAX), version)
}

fn plain_attach() -> Result<Vec<u8>, Refusal> {
    let attach = plain::Tattach {
        fid: ROOT,
        afid: Fid::NONE,
        uname: USER,
        aname: Text::default(),
    };
    written(Tag(1), plain::Tmessage::Attach(attach))
}

fn unix_attach() -> Result<Vec<u8>, Refusal> {
    let attach = unix::Tattach {
        fid: ROOT,
        afid: Fid::NONE,
        uname: USER,
        aname: Text::default(),
        n_uname: NO_NUMBER,
    };
    let (tag, msg) = (Tag(1), Ok(unix::Tmessage::Attach(attach)));
    let (frame, mut out) = (unix::Tframe { tag, msg }, [0; 64]);
    let len = frame.encode(&mut out)?;
    Ok(out[..len].to_vec())
}

fn written(tag: Tag, msg: plain::Tmessage) -> Result<Vec<u8>, Refusal> {
    let (frame, mut out) = (plain::Tframe { tag, msg: Ok(msg) }, [0; 64]);
    let len = frame.encode(&mut out)?;
    Ok(out[..len].to_vec())
}

/// A server, and what was said.
struct Talk<R, W> {
    replies: Frames<R>,
    requests: W,
    frames: Vec<u8>,
}

impl<R: Read, W: Write> Talk<R, W> {
    fn ask(&mut self, request: &[u8]) -> io::Result<()> {
        self.requests.write_all(request)?;
        self.frames.extend(request);
        match self.replies.next_frame()? {
            Next::Frame(reply) => self.frames.extend(reply),
            Next::TooLong(long) => {
                return Err(Error::new(ErrorKind::InvalidData, long.to_string()))
            }
            Next::End => return Err(ErrorKind::UnexpectedEof.into()),
        }
        Ok(())
    }
}
