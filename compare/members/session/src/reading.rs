//! A frame of a stretch, read by the seller's Rust and answered in the paper's numbers.

use std::io;

use judge::cases::too_many;
use judge::refusal::number;
use judge::Direction;
use p9::protocol::{Rframe, Rmessage, Tframe, Tmessage, WireFormat};

pub enum Message {
    T(Tmessage),
    R(Rmessage),
}

/// The message and the tail, or the codec's refusal. The frame is whole, so it has a type and a tag.
pub fn read(frame: &[u8]) -> Result<(Message, usize), u8> {
    let direction = direction_of(frame[4]);
    // The seller reads walks of any length.
    if too_many(direction, frame) {
        return Err(17);
    }
    let mut rest = frame;
    let message = decoded(direction, &mut rest).map_err(|error| told(&error))?;
    Ok((message, rest.len()))
}

pub fn direction_of(ty: u8) -> Direction {
    match ty % 2 {
        0 => Direction::T,
        _ => Direction::R,
    }
}

fn decoded(direction: Direction, rest: &mut &[u8]) -> io::Result<Message> {
    match direction {
        Direction::T => Tframe::decode(rest)?.msg.map(Message::T),
        Direction::R => Rframe::decode(rest).map(|frame| Message::R(frame.msg)),
    }
}

/// A number that the paper does not have equals none of ours.
fn told(error: &io::Error) -> u8 {
    number(error).unwrap_or(u8::MAX)
}
