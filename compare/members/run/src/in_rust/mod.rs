//! The same cases through the crate in Rust, as a server uses it: records in, records out, each field
//! beside the seller's of the same name.

mod by_name;
mod fields;
mod frames;
mod parts;
mod stretches;

use std::fmt::Debug;

use judge::Direction;
use p9::draw::Draws;
use p9::protocol::WireFormat;
use sheafsledge::{Refusal, Rframe, Text, Tframe};

use crate::compare::{differs, in_rooms, told, Outcome};
use crate::kinds::Of;
use crate::places;

const SOUND: &str = "what the seller wrote the seller reads";

/// The difference, if there is one.
pub type Found = Option<Outcome>;

/// What a writing answers.
type Wrote = Result<usize, Refusal>;

/// The draws are its own, so that the cases are the same with it and without.
pub fn asked(of: Of, bytes: &[u8]) -> Found {
    let draws = &mut Draws::new(bytes.len() as u64);
    let buffer = &mut vec![0; bytes.len()];
    match of {
        Of::Read(Direction::T) => frames::read_request(bytes),
        Of::Read(Direction::R) => frames::read_reply(bytes),
        Of::Written(Direction::T) => frames::made::<Tframe>(&their(bytes), buffer, bytes, draws),
        Of::Written(Direction::R) => frames::made::<Rframe>(&their(bytes), buffer, bytes, draws),
        Of::Data(_) => frames::data(bytes, draws),
        Of::Entry(at) => parts::entry(at, bytes, draws),
        Of::Block => parts::block(bytes, draws),
        Of::Elements(Direction::T) => parts::names(bytes),
        Of::Elements(Direction::R) => parts::qids(bytes),
        Of::Table(Direction::T) => parts::twalk(bytes, draws),
        Of::Table(Direction::R) => parts::rwalk(bytes, draws),
        Of::Over(Direction::T) => parts::too_many_names(bytes),
        Of::Over(Direction::R) => parts::too_many_qids(bytes),
        Of::Stretch => stretches::stretch(bytes, draws),
        Of::Text => text(bytes),
        // The crate takes no flat values, and what is asked again is asked in the other ways.
        Of::Raw(_) | Of::Again(_) | Of::Row(_) => None,
    }
}

/// What the seller wrote.
fn their<T: WireFormat>(mut bytes: &[u8]) -> T {
    T::decode(&mut bytes).expect(SOUND)
}

/// UTF-8 alone, beside the standard library's; and as a string that a frame can hold, with the byte
/// where it is none.
fn text(bytes: &[u8]) -> Found {
    let theirs = std::str::from_utf8(bytes);
    unequal(&sheafsledge::is_utf8(bytes), &theirs.is_ok()).or_else(|| {
        let owed = places::text(bytes, 0).map_err(|(refusal, place)| (refusal, Some(place)));
        let why = |refusal: Refusal| (refusal.number(), refusal.at());
        let from_bytes = Text::from_bytes(bytes).map(|_| ()).map_err(why);
        let from_str = theirs.map(|text| Text::new(text).map(|_| ()).map_err(why));
        unequal(&from_bytes, &owed).or_else(|| unequal(&from_str.unwrap_or(owed), &owed))
    })
}

fn unequal<A: PartialEq + Debug>(ours: &A, theirs: &A) -> Found {
    (ours != theirs).then(|| differs(format!("{ours:?}"), format!("{theirs:?}")))
}

fn found(outcome: Outcome) -> Found {
    Some(outcome).filter(Outcome::differs)
}

/// Written after so many bytes, beside what the seller wrote.
fn put(
    before: usize,
    bytes: &[u8],
    draws: &mut Draws,
    write: impl Fn(&mut [u8]) -> Wrote,
) -> Found {
    found(in_rooms(before, bytes, draws, |out| answer(write(out))))
}

/// As it is over the C boundary.
fn answer(wrote: Wrote) -> ours::Outcome {
    match wrote {
        Ok(place) => told(0, place),
        Err(refusal) => told(refusal.number(), refusal.at().unwrap_or(0)),
    }
}
