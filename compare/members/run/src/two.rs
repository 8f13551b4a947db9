//! Requests of two strings, written from a slice for each.

use ours::Flat;
use p9::draw::Draws;
use p9::flat::Value;

use crate::compare::{first_difference, in_a_room, in_rooms, Outcome};
use crate::places::{altered, text};

/// The strings of a record, if it is of those that have two.
pub fn strings<'a>(record: &[Value<'a>]) -> Option<[&'a [u8]; 2]> {
    let strings = record.iter().filter_map(|value| match value {
        Value::String(bytes) => Some(*bytes),
        _ => None,
    });
    strings.collect::<Vec<_>>().try_into().ok()
}

/// As they are, and one of them altered, if it is no text then: a place counts as though they stood one after
/// the other. The spans are not looked at, and may be any.
pub fn written(frame: &Flat, bytes: &[u8], strings: [&[u8]; 2], draws: &mut Draws) -> Outcome {
    let put = in_rooms(0, bytes, draws, |out| ours::write_two(out, strings, frame));
    let [mut first, mut second] = strings.map(<[u8]>::to_vec);
    match draws.below(2) {
        0 => first = altered(&first, draws),
        _ => second = altered(&second, draws),
    }
    let start = first.len();
    let why = text(&first, 0).and_then(|()| text(&second, start)).err();
    let broken = why.map(|why| {
        in_a_room(bytes.len(), Err(why), |out| {
            ours::write_two(out, [&first, &second], frame)
        })
    });
    // A refusal that is the right one is still a request that was written.
    match first_difference([put].into_iter().chain(broken)) {
        Outcome::Refused => Outcome::Accepted,
        outcome => outcome,
    }
}
