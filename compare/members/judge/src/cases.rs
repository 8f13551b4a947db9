//! Frames to ask about: of drawn values, and altered.

use std::sync::LazyLock;

use p9::draw::{Cases, Draw, Draws, MOST_ELEMENTS};
use p9::protocol::{Rframe, Rmessage, Tframe, Tmessage, WireFormat};

use crate::{written, Direction};

pub const DIRECTIONS: [Direction; 2] = [Direction::T, Direction::R];

/// How many types a direction has.
pub fn types(direction: Direction) -> usize {
    match direction {
        Direction::T => Tmessage::CASES.len(),
        Direction::R => Rmessage::CASES.len(),
    }
}

/// A frame of the type at that place of the seller's list.
pub fn drawn(direction: Direction, place: usize, draws: &mut Draws) -> Vec<u8> {
    let tag = Draw::draw(draws);
    match direction {
        Direction::T => bytes(&Tframe {
            tag,
            msg: Ok(Tmessage::CASES[place](draws)),
        }),
        Direction::R => bytes(&Rframe {
            tag,
            msg: Rmessage::CASES[place](draws),
        }),
    }
}

/// The bytes of a record that can be written.
pub fn bytes(frame: &impl WireFormat) -> Vec<u8> {
    written(frame).expect("the record can be written")
}

/// The numbers that are no type of the direction.
pub fn unknown(direction: Direction) -> &'static [u8] {
    static UNKNOWN: LazyLock<[Vec<u8>; 2]> = LazyLock::new(|| DIRECTIONS.map(no_types));
    &UNKNOWN[direction as usize]
}

fn no_types(direction: Direction) -> Vec<u8> {
    let draws = &mut Draws::new(0);
    let known: Vec<u8> = (0..types(direction))
        .map(|place| drawn(direction, place, draws)[4])
        .collect();
    (0..=255).filter(|ty| !known.contains(ty)).collect()
}

/// A frame without a body.
pub fn header(size: u32, ty: u8, tag: u16) -> Vec<u8> {
    let mut frame = size.to_le_bytes().to_vec();
    frame.push(ty);
    frame.extend(tag.to_le_bytes());
    frame
}

/// The same bytes under another size.
pub fn sized(mut frame: Vec<u8>, size: u32) -> Vec<u8> {
    frame[..4].copy_from_slice(&size.to_le_bytes());
    frame
}

/// A few bytes flipped, replaced, put in or taken out.
pub fn damaged(mut frame: Vec<u8>, draws: &mut Draws) -> Vec<u8> {
    for _ in 0..=draws.below(3) {
        let at = draws.below(frame.len());
        match draws.below(5) {
            0 => frame[at] ^= 1 << draws.below(8),
            1 => frame[at] = draws.byte(),
            2 => frame[at] = draws.one_of(&[0, 1, 0x7f, 0x80, 0xc0, 0xff]),
            3 => frame.insert(at, draws.byte()),
            _ if frame.len() > 1 => drop(frame.remove(at)),
            _ => {}
        }
    }
    frame
}

/// A reply of size 0 to 3: the Rust takes 4 from the size unchecked, and so reads on as far as
/// there are bytes (docs/DIFFERENCES.md).
pub fn wraps(direction: Direction, frame: &[u8]) -> bool {
    let size = frame.first_chunk().map(|size| u32::from_le_bytes(*size));
    direction == Direction::R && size.is_some_and(|size| size < 4)
}

/// A walk whose count is held, and is more than sixteen: the Rust reads on, and the paper refuses it
/// with 17 (docs/DIFFERENCES.md).
pub fn too_many(direction: Direction, frame: &[u8]) -> bool {
    let Some(size) = frame.first_chunk() else {
        return false;
    };
    let size = u32::from_le_bytes(*size) as usize;
    let held = &frame[..size.min(frame.len())];
    let (ty, at) = match direction {
        Direction::T => (110, 15),
        Direction::R => (111, 7),
    };
    let count = held.get(at..).and_then(|rest| rest.first_chunk());
    let over = |count: &[u8; 2]| usize::from(u16::from_le_bytes(*count)) > MOST_ELEMENTS;
    held.get(4) == Some(&ty) && count.is_some_and(over)
}
