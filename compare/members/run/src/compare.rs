//! One case: the library's answer beside the seller's.

use judge::cases::{sized, too_many, wraps};
use judge::Direction;
use ours::Flat;
use p9::draw::Draws;
use p9::flat::Value;
use p9::show::hex;

use crate::kinds::Of;
use crate::pieces::{lent, pieces, values};
use crate::places::Why;
use crate::theirs::{self, Again, Theirs};
use crate::{blocks, dirents, elements, in_rust, over, raw, rows, stretches, tables, two};

pub enum Outcome {
    /// The same, and whether it is a frame or a refusal.
    Accepted,
    Refused,
    /// As docs/DIFFERENCES.md says.
    Known,
    Differs {
        ours: String,
        theirs: String,
    },
}

impl Outcome {
    pub fn differs(&self) -> bool {
        matches!(self, Outcome::Differs { .. })
    }
}

/// What a writing answers, and the output afterwards.
#[derive(PartialEq, Eq)]
struct Written {
    wrote: ours::Outcome,
    out: Vec<u8>,
}

/// The output before a writing, which stays where nothing is put.
pub const BLANK: u8 = 0xee;

const MOST_SHOWN: usize = 100_000;

/// What is asked of these bytes, over the C boundary and then through the crate in Rust.
pub fn asked(of: Of, bytes: &[u8], draws: &mut Draws) -> Outcome {
    let outcome = over_c(of, bytes, draws);
    match outcome.differs() {
        true => outcome,
        false => in_rust::asked(of, bytes).unwrap_or(outcome),
    }
}

fn over_c(of: Of, bytes: &[u8], draws: &mut Draws) -> Outcome {
    match of {
        Of::Read(direction) => read(direction, bytes),
        Of::Written(direction) => theirs::with_values(direction, bytes, |record| {
            write_anew(direction, bytes, record, draws)
        }),
        Of::Data(direction) => write_anew(direction, bytes, &theirs::of_data(bytes), draws),
        Of::Entry(at) => dirents::entry(at, bytes, draws),
        Of::Block => blocks::block(bytes, draws),
        Of::Elements(direction) => elements::elements(direction, bytes, draws),
        Of::Table(direction) => tables::table(direction, bytes, draws),
        Of::Stretch => stretches::stretch(bytes, draws),
        Of::Text => text(bytes),
        Of::Raw(direction) => raw::raw(direction, bytes),
        Of::Again(direction) => again(direction, bytes, draws),
        Of::Over(direction) => over::walk(direction, bytes),
        Of::Row(row) => rows::row(row),
    }
}

/// What the seller's crate reads of any bytes and writes again: all that is asked of frames which it
/// wrote.
fn again(direction: Direction, bytes: &[u8], draws: &mut Draws) -> Outcome {
    let Some(Ok(frame)) = theirs::read(direction, bytes).again else {
        return Outcome::Refused;
    };
    let of_any = [Of::Written(direction)];
    let of_walks = [Of::Elements(direction), Of::Table(direction)];
    let all = match frame[4] {
        110 | 111 => of_any.iter().chain(&of_walks),
        _ => of_any.iter().chain(&[]),
    };
    first_difference(all.map(|of| asked(*of, &frame, draws)))
}

/// A frame read, alone and in a stretch, and the record written again where there is one.
fn read(direction: Direction, bytes: &[u8]) -> Outcome {
    let ours = ours::read(direction, bytes);
    if wraps(direction, bytes) {
        return known(bytes, &ours, &theirs::sellers(direction, bytes));
    }
    let theirs = theirs::read(direction, bytes);
    if ours != theirs.flat || !theirs.shown {
        return differs(format!("{ours:?}"), read_by(&theirs));
    }
    if let Some(outcome) = stretches::moved(direction, bytes, &theirs) {
        return outcome;
    }
    let outcome = match &theirs.again {
        None => Outcome::Refused,
        Some(again) => {
            let room = again.as_ref().map_or(0, Vec::len) + 3;
            in_a_room(room, again.clone(), |out| {
                ours::write(direction, out, bytes, &ours)
            })
        }
    };
    match outcome {
        Outcome::Refused if too_many(direction, bytes) => Outcome::Known,
        outcome => outcome,
    }
}

/// The Rust answers as though there were no size.
fn known(bytes: &[u8], ours: &Flat, theirs: &Theirs) -> Outcome {
    let refused = theirs::refused((2, 0));
    let unlimited = theirs::sellers(Direction::R, &sized(bytes.to_vec(), u32::MAX));
    match *ours == refused.flat && *theirs == unlimited {
        true => Outcome::Known,
        false => differs(format!("{ours:?}"), read_by(theirs)),
    }
}

/// What is answered where there is no frame to tell of.
pub fn told(refusal: u8, place: usize) -> ours::Outcome {
    ours::Outcome {
        refusal,
        place,
        ..ours::Outcome::default()
    }
}

fn untouched((refusal, place): Why, room: usize) -> Written {
    Written {
        wrote: told(refusal, place),
        out: vec![BLANK; room],
    }
}

fn beside(ours: Written, theirs: Written) -> Outcome {
    match ours.wrote.refusal {
        _ if ours != theirs => differs(put(&ours), put(&theirs)),
        0 => Outcome::Accepted,
        _ => Outcome::Refused,
    }
}

pub fn differs(ours: String, theirs: String) -> Outcome {
    Outcome::Differs { ours, theirs }
}

/// UTF-8 alone, beside the standard library's, which the seller's strings go by.
fn text(bytes: &[u8]) -> Outcome {
    match (ours::is_utf8(bytes), std::str::from_utf8(bytes).is_ok()) {
        (true, true) => Outcome::Accepted,
        (false, false) => Outcome::Refused,
        (ours, theirs) => differs(ours.to_string(), theirs.to_string()),
    }
}

fn read_by(theirs: &Theirs) -> String {
    match theirs.shown {
        true => format!("{:?}", theirs.flat),
        false => format!("{:?}, with other bytes there", theirs.flat),
    }
}

fn put(written: &Written) -> String {
    format!("{:?}, output {}", written.wrote, start(&written.out))
}

/// In hex; of very many bytes the first, and their number.
pub fn start(bytes: &[u8]) -> String {
    match bytes.get(..MOST_SHOWN) {
        Some(first) => format!("{}.. ({} bytes)", hex(first), bytes.len()),
        None => hex(bytes),
    }
}

/// The record of a frame written from other bytes.
fn write_anew(direction: Direction, bytes: &[u8], record: &[Value], draws: &mut Draws) -> Outcome {
    let pieces = pieces(record);
    let (lent, places) = lent(&pieces, draws);
    let frame = Flat {
        outcome: ours::Outcome {
            refusal: 0,
            ty: bytes[4],
            tag: u16::from_le_bytes([bytes[5], bytes[6]]),
            held: true,
            place: draws.below(usize::MAX),
        },
        values: values(&pieces, &places),
    };
    let put = in_rooms(0, bytes, draws, |out| {
        ours::write(direction, out, &lent, &frame)
    });
    match two::strings(record) {
        Some(strings) if !put.differs() => two::written(&frame, bytes, strings, draws),
        _ => put,
    }
}

/// What is written after so many bytes of an output, beside what the seller wrote: into
/// outputs that are too short, by a byte and by more, into one that is just long enough, and into
/// one with bytes to spare.
pub fn in_rooms(
    before: usize,
    bytes: &[u8],
    draws: &mut Draws,
    write: impl Fn(&mut [u8]) -> ours::Outcome,
) -> Outcome {
    let len = before + bytes.len();
    let short = [len - 1, draws.below(len)].map(|room| untouched((11, 0), room));
    let long = [0, 1 + draws.below(20)].map(|spare| front(before, bytes, spare));
    let outcomes = short.into_iter().chain(long);
    let outcomes = outcomes.map(|theirs| put_beside(theirs, &write));
    first_difference(outcomes)
}

/// A writing that is refused.
pub fn refused(refusal: u8, room: usize, write: impl Fn(&mut [u8]) -> ours::Outcome) -> Outcome {
    in_a_room(room, Err((refusal, 0)), write)
}

/// A writing into an output of that length, beside the frame that must come of it, or the refusal.
pub fn in_a_room(
    room: usize,
    theirs: Again,
    write: impl Fn(&mut [u8]) -> ours::Outcome,
) -> Outcome {
    let theirs = match theirs {
        Ok(bytes) => front(0, &bytes, room - bytes.len()),
        Err(why) => untouched(why, room),
    };
    put_beside(theirs, write)
}

fn put_beside(theirs: Written, write: impl Fn(&mut [u8]) -> ours::Outcome) -> Outcome {
    let mut out = vec![BLANK; theirs.out.len()];
    let wrote = write(&mut out);
    beside(Written { wrote, out }, theirs)
}

/// An output with so many bytes before and after what was written.
fn front(before: usize, bytes: &[u8], spare: usize) -> Written {
    let len = before + bytes.len();
    Written {
        wrote: told(0, len),
        out: [&vec![BLANK; before], bytes, &vec![BLANK; spare]].concat(),
    }
}

/// The first outcome that is a difference, or else the last.
pub fn first_difference(outcomes: impl Iterator<Item = Outcome>) -> Outcome {
    let mut last = Outcome::Accepted;
    for outcome in outcomes {
        last = outcome;
        if last.differs() {
            break;
        }
    }
    last
}
