//! A stretch, frame by frame: cut as the paper says, and each frame answered by the seller's Rust. What
//! is read of it in its place is held to what it is alone.

use std::ops::Range;

use judge::cases::{header, unknown, DIRECTIONS};
use judge::stretch::whole;
use judge::Direction;
use ours::{Flat, Outcome as Told};
use p9::draw::Draws;

use crate::compare::{differs, in_a_room, told, Outcome};
use crate::harmed::harmed;
use crate::theirs::{self, Theirs};

/// A frame's size, its type and its tag.
const HEADER: usize = 7;

/// From 0 on to the end or a refusal, then at a few positions where no frame need start, and last with
/// one of its frames damaged.
pub fn stretch(bytes: &[u8], draws: &mut Draws) -> Outcome {
    let mut position = 0;
    loop {
        let theirs = step(bytes, position);
        if let Some(outcome) = beside(bytes, position, &theirs) {
            return outcome;
        }
        let theirs = theirs.0;
        if !theirs.held {
            break;
        }
        let (at, ty) = (position, theirs.ty);
        position = theirs.place;
        let in_place = || in_its_place(way(ty), bytes, at..position, ty);
        if let Some(outcome) = pairs(ty, theirs.tag).or_else(in_place) {
            return outcome;
        }
    }
    for _ in 0..3 {
        let position = draws.below(bytes.len() + 3);
        let anywhere = || any_body(bytes, position, draws);
        if let Some(outcome) = beside(bytes, position, &step(bytes, position)).or_else(anywhere) {
            return outcome;
        }
    }
    let whole = position == bytes.len();
    harmed(bytes, draws).unwrap_or(match whole {
        true => Outcome::Accepted,
        false => Outcome::Refused,
    })
}

/// What is at a position, and what the reader of its direction says of a frame there.
type Step = (Told, Option<Flat>);

fn beside(bytes: &[u8], position: usize, theirs: &Step) -> Option<Outcome> {
    let step = ours::frame_at(bytes, position);
    let frame = bytes.get(position..step.place).filter(|_| step.held);
    let ours = (step, frame.map(|f| ours::read(way(step.ty), f)));
    (ours != *theirs).then(|| differs(format!("{ours:?}"), format!("{theirs:?}")))
}

/// The bytes from a position on as a body, up to any end, of any type and either direction.
fn any_body(bytes: &[u8], at: usize, draws: &mut Draws) -> Option<Outcome> {
    let end = at + draws.below(bytes.len().saturating_sub(at) + 1);
    let types = [draws.byte(), draws.one_of(&[108, 110, 111, 100, 117, 23])];
    let way = draws.one_of(&DIRECTIONS);
    let range = at..end.min(bytes.len());
    types
        .into_iter()
        .find_map(|ty| in_its_place(way, bytes, range.clone(), ty))
}

/// The body at a position, beside what the same frame is alone.
fn in_its_place(way: Direction, bytes: &[u8], range: Range<usize>, ty: u8) -> Option<Outcome> {
    let Range { start: at, end } = range;
    let Some(body) = bytes.get(at + HEADER..end) else {
        // The type is looked for first.
        let refusal = if unknown(way).contains(&ty) { 3 } else { 1 };
        let ours = ours::read_body(way, &bytes[..end], at, ty);
        return unlike(&ours, &theirs::refused((refusal, 0)).flat);
    };
    let tag = u16::from_le_bytes([bytes[at + 5], bytes[at + 6]]);
    let frame = [&header((end - at) as u32, ty, tag), body].concat();
    let theirs = theirs::read(way, &frame);
    in_a_stretch(way, &frame, &theirs, 0, &frame)
        .or_else(|| in_a_stretch(way, bytes, &theirs, at, &frame))
}

/// A frame that was read alone, after some bytes and before others. No byte after its size counts.
pub fn moved(way: Direction, frame: &[u8], theirs: &Theirs) -> Option<Outcome> {
    let size = u32::from_le_bytes(*frame.first_chunk()?) as usize;
    let own = frame.get(..size).unwrap_or(frame);
    if own.len() < HEADER {
        return None;
    }
    let draws = &mut Draws::new(frame.len() as u64);
    let at = draws.below(300);
    let stretch = [&draws.bytes(at), frame].concat();
    in_a_stretch(way, &stretch, theirs, at, own)
}

/// What is read at a position of a stretch, where that frame's body stands: the values of the frame
/// alone, raised by the position. And it is written again, with all of the stretch lent.
fn in_a_stretch(
    way: Direction,
    stretch: &[u8],
    theirs: &Theirs,
    at: usize,
    frame: &[u8],
) -> Option<Outcome> {
    let ty = frame[4];
    let mut ours = ours::read_body(way, &stretch[..at + frame.len()], at, ty);
    let owed = theirs::raised(way, ty, &theirs.flat, at);
    unlike(&ours, &owed).or_else(|| {
        let again = theirs.again.clone().filter(|_| owed.outcome.refusal == 0)?;
        ours.outcome.ty = ty;
        ours.outcome.tag = u16::from_le_bytes([frame[5], frame[6]]);
        let write = |out: &mut [u8]| ours::write(way, out, stretch, &ours);
        Some(in_a_room(frame.len(), again, write)).filter(Outcome::differs)
    })
}

fn unlike(ours: &Flat, theirs: &Flat) -> Option<Outcome> {
    (ours != theirs).then(|| differs(format!("{ours:?}"), format!("{theirs:?}")))
}

/// The type of an Rlerror, which answers any request.
pub const RLERROR: u8 = 7;

pub fn way(ty: u8) -> Direction {
    match ty % 2 {
        0 => Direction::T,
        _ => Direction::R,
    }
}

/// Whether the next number, 7, another one and another tag answer it, by F7.1.
fn pairs(ty: u8, tag: u16) -> Option<Outcome> {
    let known = !unknown(Direction::T).contains(&ty);
    let replies = [
        (ty.wrapping_add(1), tag, known),
        (RLERROR, tag, known),
        (
            ty.wrapping_add(2),
            tag,
            known && ty.wrapping_add(2) == RLERROR,
        ),
        (ty.wrapping_add(1), !tag, false),
        (RLERROR, !tag, false),
    ];
    let mut wrong = replies.iter().filter(|(reply, tag_of_it, theirs)| {
        ours::answers((ty, tag), (*reply, *tag_of_it)) != *theirs
    });
    let reply = wrong.next()?;
    Some(differs(
        format!("{:?} answers {:?}: {}", reply, (ty, tag), !reply.2),
        reply.2.to_string(),
    ))
}

fn step(bytes: &[u8], at: usize) -> Step {
    if at == bytes.len() {
        return (told(0, at), None);
    }
    match whole(bytes.get(at..).unwrap_or_default()) {
        Err(refusal) => (told(refusal, at), None),
        Ok(frame) => {
            let ty = frame[4];
            let step = Told {
                ty,
                tag: u16::from_le_bytes([frame[5], frame[6]]),
                held: true,
                ..told(0, at + frame.len())
            };
            (step, Some(theirs::read(way(ty), frame).flat))
        }
    }
}
