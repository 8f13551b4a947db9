//! Stretches of drawn frames: some damaged, some with a tail, of no known type, cut, or under a size
//! that no frame has.

use judge::cases::{damaged, drawn, header, sized, types, unknown, DIRECTIONS};
use p9::draw::Draws;

/// The longest input of the lister.
const LONGEST: usize = 65_536;

pub fn stretch(turn: usize, draws: &mut Draws) -> Vec<u8> {
    let long = match turn % 4 {
        0 => LONGEST,
        _ => draws.below(LONGEST + 1),
    };
    let mut bytes = Vec::new();
    loop {
        let frame = frame(draws);
        if bytes.len() + frame.len() > long {
            break;
        }
        bytes.extend(frame);
    }
    let left = long - bytes.len();
    match turn % 5 {
        // The next frame's start, or all but its last byte.
        0 => bytes.extend(&sized(vec![0; left.max(4)], left as u32 + 1)[..left]),
        1 if left >= 4 => bytes.extend(sized(vec![0; left], draws.below(7) as u32)),
        // A frame that fills the rest, whatever it holds.
        2 if left >= 7 => {
            bytes.extend(header(left as u32, draws.byte(), 1));
            bytes.extend(draws.bytes(left - 7));
        }
        _ => {}
    }
    bytes
}

/// One frame that ends where its size says.
fn frame(draws: &mut Draws) -> Vec<u8> {
    let direction = draws.one_of(&DIRECTIONS);
    let place = draws.below(types(direction));
    let mut frame = drawn(direction, place, draws);
    match draws.below(8) {
        0 => frame = damaged(frame, draws),
        1 => {
            let tail = draws.one_of(&[1, 2, 7, 300]);
            frame.extend(draws.bytes(tail));
        }
        2 => frame.truncate(7 + draws.below(frame.len() - 6)),
        3 => {
            frame = header(0, draws.one_of(unknown(direction)), 5);
            let body = draws.below(20);
            frame.extend(draws.bytes(body));
        }
        _ => {}
    }
    frame.resize(frame.len().max(7), 0);
    let size = frame.len() as u32;
    sized(frame, size)
}
