//! A recording: sealed, taken apart, followed frame by frame, and told as the paper says.

use std::collections::BTreeMap;

use judge::stretch::whole;

use crate::reading::{read, Message};
use crate::session::{Refusal, Session};

/// The longest file that the program takes.
pub const LONGEST: usize = 65_536;

/// Three numbers of four bytes.
pub const TRAILER: usize = 12;

/// A frame, and what has to be true once it is followed. Another session can be held to `answer` and
/// `paths` frame by frame; the program's text tells the answers alone.
#[derive(Debug)]
pub struct Expected {
    pub at: usize,
    pub size: usize,
    pub ty: u8,
    pub tag: u16,
    /// 0, or the refusal's number.
    pub answer: u8,
    pub tail: usize,
    /// Of every fid that is known after the frame; any other is 23.
    pub paths: BTreeMap<u32, Vec<u8>>,
}

/// How a frame is answered by the codec or, if that accepts it, by the session.
pub enum Answer {
    Codec(u8),
    Session(Result<(), Refusal>),
}

/// Told of each frame, before the session is altered and after: for the tally.
pub trait Watch {
    fn before(&mut self, session: &Session, ty: u8, tag: u16, message: &Message, tail: usize);
    fn after(&mut self, ty: u8, tag: u16, answer: &Answer);
}

/// One that does not look.
impl Watch for () {
    fn before(&mut self, _: &Session, _: u8, _: u16, _: &Message, _: usize) {}
    fn after(&mut self, _: u8, _: u16, _: &Answer) {}
}

/// A stretch that reads to its end, followed from the empty session on.
pub fn expected<'a>(
    stretch: &'a [u8],
    watch: &'a mut impl Watch,
) -> impl Iterator<Item = Expected> + 'a {
    let (mut at, mut session) = (0, Session::default());
    std::iter::from_fn(move || {
        let frame = whole(&stretch[at..]).ok()?;
        let (answer, tail) = step(&mut session, frame, watch);
        let expected = Expected {
            at,
            size: frame.len(),
            ty: frame[4],
            tag: tag_of(frame),
            answer,
            tail,
            paths: session.paths(),
        };
        at += frame.len();
        Some(expected)
    })
}

/// The answer's number and the tail.
pub fn step(session: &mut Session, frame: &[u8], watch: &mut impl Watch) -> (u8, usize) {
    let (ty, tag) = (frame[4], tag_of(frame));
    let (answer, tail) = match read(frame) {
        Err(refusal) => (Answer::Codec(refusal), 0),
        Ok((message, tail)) => {
            watch.before(session, ty, tag, &message, tail);
            (Answer::Session(session.step(ty, tag, message)), tail)
        }
    };
    watch.after(ty, tag, &answer);
    (answer.number(), tail)
}

impl Answer {
    pub fn number(&self) -> u8 {
        match self {
            Self::Codec(refusal) => *refusal,
            Self::Session(done) => done.err().map_or(0, Refusal::number),
        }
    }
}

pub fn tag_of(frame: &[u8]) -> u16 {
    u16::from_le_bytes([frame[5], frame[6]])
}

/// The trailer's numbers, if the stretch reads to its end.
pub fn numbers(stretch: &[u8]) -> Option<[u32; 3]> {
    let (mut at, mut frames, mut last) = (0, 0, 0);
    while at < stretch.len() {
        last = at as u32;
        at += whole(&stretch[at..]).ok()?.len();
        frames += 1;
    }
    Some([at as u32, frames, last])
}

pub fn with_trailer(stretch: &[u8], numbers: [u32; 3]) -> Vec<u8> {
    let trailer = numbers.map(u32::to_le_bytes).concat();
    [stretch, &trailer].concat()
}

/// What the program has to print for a file.
pub fn text(file: &[u8], watch: &mut impl Watch) -> String {
    if file.len() > LONGEST {
        return "input too long\n".into();
    }
    let Some(stretch) = stretch_of(file) else {
        return "stop 0 19\n".into();
    };
    let mut text = String::from("at size type tag answer tail\n");
    let mut frames = 0;
    for frame in expected(stretch, watch) {
        text += &line(&frame);
        frames += 1;
    }
    text + &format!("end {} {frames}\n", stretch.len())
}

/// What stands before the trailer, if that is its own.
fn stretch_of(file: &[u8]) -> Option<&[u8]> {
    let length = file.len().checked_sub(TRAILER)?;
    let stretch = &file[..length];
    (with_trailer(stretch, numbers(stretch)?) == file).then_some(stretch)
}

fn line(frame: &Expected) -> String {
    let Expected {
        at,
        size,
        ty,
        tag,
        answer,
        tail,
        ..
    } = frame;
    match answer {
        0 => format!("{at} {size} {ty} {tag} 0 {tail}\n"),
        _ => format!("{at} {size} {ty} {tag} {answer} -\n"),
    }
}
