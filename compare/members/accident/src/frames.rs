//! Our frames, as a server in Rust has them: the stream is cut at the declared sizes, and each
//! request is read and written again, without its tail.

use std::io;

use sheafsledge::stream::{Frames, Next};
use sheafsledge::{Refusal, Tag, Tframe};

/// What the session begins with.
const MSIZE: u32 = 8192;

/// The bytes after the last field of a frame, and the frame's tag.
#[derive(Clone, Debug, PartialEq, Eq)]
pub struct Tail {
    pub tag: Tag,
    pub bytes: Vec<u8>,
}

/// The requests of the stream without their tails, and the tails.
pub fn stripped(stream: &[u8]) -> io::Result<(Vec<u8>, Vec<Tail>)> {
    let (mut requests, mut tails) = (Vec::new(), Vec::new());
    let mut frames = Frames::new(stream, MSIZE);
    loop {
        let frame = match frames.next_frame()? {
            Next::Frame(frame) => frame,
            Next::TooLong(told) => return Err(told.into()),
            Next::End => return Ok((requests, tails)),
        };
        let read = Tframe::decode(frame)?;
        read.frame.msg?;
        requests.extend(written(&read.frame)?);
        let tail = &frame[read.used..];
        if !tail.is_empty() {
            tails.push(Tail {
                tag: read.frame.tag,
                bytes: tail.to_vec(),
            });
        }
    }
}

fn written(request: &Tframe) -> Result<Vec<u8>, Refusal> {
    let mut room = vec![0; MSIZE as usize];
    let len = request.encode(&mut room)?;
    room.truncate(len);
    Ok(room)
}
