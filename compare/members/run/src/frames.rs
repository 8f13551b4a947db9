//! Frames to ask about: short ones, and drawn ones cut, sized and lengthened.

use judge::cases::{drawn, header, sized, types, unknown, DIRECTIONS};
use judge::Direction;
use p9::draw::{Draw, Draws};

use crate::pieces::borders;
use crate::theirs::with_values;

/// A frame that is cut at every byte has at most so many.
pub const MOST_CUTS: usize = 400;

/// The direction and the place in the seller's list whose turn it is, of all 57 types.
pub fn type_in_turn(turn: usize) -> (Direction, usize) {
    let requests = types(Direction::T);
    match turn % (requests + types(Direction::R)) {
        place if place < requests => (Direction::T, place),
        place => (Direction::R, place - requests),
    }
}

/// Every frame of up to two bytes, and then those of three. An odd factor spreads them, and
/// leaves none out.
pub fn short(turn: usize) -> Vec<u8> {
    let (place, count) = match turn {
        0 => (0, 0),
        1..=256 => (turn - 1, 1),
        257..=65_792 => (turn - 257, 2),
        _ => (turn - 65_793, 3),
    };
    place.wrapping_mul(0x9e_3779).to_le_bytes()[..count].to_vec()
}

pub fn sizes(frame: Vec<u8>) -> Vec<Vec<u8>> {
    let len = frame.len() as u32;
    let sizes = (0..=16)
        .chain(len.saturating_sub(3)..=len + 3)
        .chain([u32::MAX / 2, u32::MAX]);
    sizes.map(|size| sized(frame.clone(), size)).collect()
}

/// Every cut, of the bytes and of the size alone.
pub fn cuts(direction: Direction, place: usize, draws: &mut Draws) -> Vec<Vec<u8>> {
    let frame = loop {
        let frame = drawn(direction, place, draws);
        if frame.len() <= MOST_CUTS {
            break frame;
        }
    };
    let cut = |end: usize| [frame[..end].to_vec(), sized(frame.clone(), end as u32)];
    (0..frame.len()).flat_map(cut).collect()
}

/// The size one less than each border of the frame, at it, and one more.
pub fn bordered(direction: Direction, frame: &[u8]) -> Vec<Vec<u8>> {
    let ends = with_values(direction, frame, borders);
    let sizes = ends.iter().flat_map(|end| [end - 1, *end, end + 1]);
    sizes
        .map(|size| sized(frame.to_vec(), size as u32))
        .collect()
}

/// A tail inside the size, after it, or across its end.
pub fn tailed(mut frame: Vec<u8>, draws: &mut Draws) -> Vec<u8> {
    let (len, count) = (frame.len(), 1 + draws.below(40));
    let tail = draws.bytes(count);
    frame.extend(tail);
    let inside = draws.below(count + 1);
    sized(frame, (len + inside) as u32)
}

/// Each unknown number of both directions in turn, with bytes after it.
pub fn of_no_type(turn: usize, draws: &mut Draws) -> (Direction, Vec<u8>) {
    let direction = DIRECTIONS[turn % 2];
    let all = unknown(direction);
    let ty = all[turn / 2 % all.len()];
    let count = draws.below(40);
    let mut frame = header(7 + count as u32, ty, Draw::draw(draws));
    let body = draws.bytes(count);
    frame.extend(body);
    (direction, frame)
}
