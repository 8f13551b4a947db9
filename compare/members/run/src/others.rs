//! What else is asked about: directory entries, walks, stretches, text, and values.

use judge::cases::{bytes, damaged, drawn, sized, DIRECTIONS};
use judge::Direction;
use p9::draw::{Draw, Draws};
use p9::protocol::{Dirent, P9String, Rframe, Rmessage, Tframe, Tmessage};

use crate::frames::{of_no_type, tailed, type_in_turn, MOST_CUTS};
use crate::kinds::{Asked, Of};
use crate::limits::string;
use crate::places::altered;

/// The longest name comes up once in so many turns. It is odd, so that all four ways have it.
const LONG_NAME: usize = 511;

/// An entry among other bytes: as it is, damaged, or cut at every byte; or several in a row, each at
/// its place.
pub fn entries(turn: usize, draws: &mut Draws) -> Vec<Asked> {
    let before = draws.below(9);
    let mut all = draws.bytes(before);
    let mut places = Vec::new();
    for _ in 0..=draws.below(3) {
        places.push(all.len());
        all.extend(bytes(&Dirent {
            name: match turn % LONG_NAME {
                0 => string(draws),
                _ => P9String::draw(draws),
            },
            ..Draw::draw(draws)
        }));
    }
    let asked = |at: usize, bytes: Vec<u8>| Asked {
        of: Of::Entry(at),
        bytes,
    };
    match turn % 4 {
        0 => places
            .into_iter()
            .map(|at| asked(at, all.clone()))
            .collect(),
        1 => vec![asked(before, damaged(all, draws))],
        2 if all.len() <= MOST_CUTS => (0..all.len())
            .map(|end| asked(before, all[..end].to_vec()))
            .collect(),
        _ => {
            // Any place, the end and after it too.
            let at = draws.below(all.len() + 3);
            vec![asked(at, all)]
        }
    }
}

/// Entries one after the other: as they are, damaged, or cut at every byte.
pub fn blocks(turn: usize, draws: &mut Draws) -> Vec<Vec<u8>> {
    let mut all = Vec::new();
    for _ in 0..draws.below(9) {
        all.extend(bytes(&Dirent {
            name: P9String::draw(draws),
            ..Draw::draw(draws)
        }));
    }
    match turn % 3 {
        0 => vec![all],
        1 => vec![damaged(all, draws)],
        _ if all.len() <= MOST_CUTS => (0..=all.len()).map(|end| all[..end].to_vec()).collect(),
        _ => vec![altered(&all, draws)],
    }
}

/// A walk of either direction.
pub fn walk(of: fn(Direction) -> Of, turn: usize, draws: &mut Draws) -> Vec<Asked> {
    let direction = DIRECTIONS[turn % 2];
    let (of, bytes) = (of(direction), a_walk(direction, draws));
    vec![Asked { of, bytes }]
}

fn a_walk(direction: Direction, draws: &mut Draws) -> Vec<u8> {
    let tag = Draw::draw(draws);
    match direction {
        Direction::T => {
            let msg = Ok(Tmessage::Walk(Draw::draw(draws)));
            bytes(&Tframe { tag, msg })
        }
        Direction::R => {
            let msg = Rmessage::Walk(Draw::draw(draws));
            bytes(&Rframe { tag, msg })
        }
    }
}

/// Frames back to back, some damaged, some with a tail, and the last one perhaps cut.
pub fn joined(draws: &mut Draws) -> Vec<u8> {
    let mut all = Vec::new();
    for _ in 0..draws.below(12) {
        let (direction, place) = type_in_turn(draws.below(57));
        let frame = drawn(direction, place, draws);
        let len = frame.len() as u32;
        all.extend(match draws.below(8) {
            0 => damaged(frame, draws),
            // In its place, but of any bytes after the size.
            1 => sized(damaged(frame, draws), len),
            2 => tailed(frame, draws),
            3 => of_no_type(draws.below(9999), draws).1,
            _ => frame,
        });
    }
    match draws.below(3) {
        0 => all[..draws.below(all.len() + 1)].to_vec(),
        _ => all,
    }
}

/// The first bytes at the borders of RFC 3629's rows, each with how many have to follow it; and what
/// stands at the borders of those.
const LEADS: [(u8, usize); 16] = [
    (0x00, 0),
    (0x7f, 0),
    (0x80, 0),
    (0xbf, 0),
    (0xc1, 1),
    (0xc2, 1),
    (0xdf, 1),
    (0xe0, 2),
    (0xe1, 2),
    (0xed, 2),
    (0xee, 2),
    (0xef, 2),
    (0xf0, 3),
    (0xf3, 3),
    (0xf4, 3),
    (0xf5, 3),
];
const TRAILS: [u8; 8] = [0x7f, 0x80, 0x8f, 0x90, 0x9f, 0xa0, 0xbf, 0xc0];

/// Characters of every row, damaged or not, with such bytes after them; or with zero bytes; or bytes of
/// any kind.
pub fn text(draws: &mut Draws) -> Vec<u8> {
    let count = draws.below(40);
    let mut text = P9String::draw(draws).as_bytes().to_vec();
    match draws.below(7) {
        0 => draws.bytes(count),
        1 if !text.is_empty() => damaged(text, draws),
        2 => text,
        3 => [&text[..], b"\0", &altered(&text, draws)].concat(),
        _ => {
            let (lead, after) = draws.one_of(&LEADS);
            text.push(lead);
            text.extend((0..after).map(|_| draws.one_of(&TRAILS)));
            text
        }
    }
}

/// A record's values as `raw` takes them, few of them out of bounds, and text to lend.
pub fn values(direction: Direction, place: usize, draws: &mut Draws) -> Vec<u8> {
    let ty = match draws.below(20) {
        0 => draws.byte(),
        _ => drawn(direction, place, draws)[4],
    };
    let mut all = vec![ty];
    all.extend(draws.bytes(3));
    all.extend([draws.byte(), draws.one_of(&[0, 0, 0, 1])]);
    for _ in 0..22 {
        let small = draws.below(12) as u8;
        let wide = draws.one_of(&[250, 252, 253, 254]);
        all.push(draws.one_of(&[small, small, small, small, small, small, small, wide]));
    }
    all.extend(a_walk(Direction::T, draws));
    all
}

/// A walk's values, of which one or none is one off, and the walk itself to lend.
pub fn near_a_walk(direction: Direction, draws: &mut Draws) -> Vec<u8> {
    let frame = a_walk(direction, draws);
    let start = match direction {
        Direction::T => 17,
        Direction::R => 9,
    };
    let count = u16::from_le_bytes([frame[start - 2], frame[start - 1]]);
    let mut part = [count, start as u16, (frame.len() - start) as u16];
    let off = draws.one_of(&[u16::MAX, 1]);
    // Those that are no values of the part stand for none.
    if let Some(value) = part.get_mut(draws.below(6)) {
        *value = value.wrapping_add(off);
    }
    let mut all = vec![frame[4], 0, 0, 0, 255, 31];
    all.extend(&[1, 2][..(start - 9) / 4]);
    for value in part {
        all.push(250);
        all.extend(value.to_le_bytes());
    }
    all.push(255);
    all.extend(frame);
    all.extend(draws.bytes(2));
    all
}
