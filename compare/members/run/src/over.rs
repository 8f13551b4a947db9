//! A walk of more than sixteen elements, which the Rust writes: ours refuses it with 17, whether it
//! comes as a part of a frame or as a table, and whichever element is asked for.

use judge::Direction;
use ours::{Flat, Part, Qid, UNWRITTEN};

use crate::compare::{differs, first_difference, refused, told, Outcome};

/// Refused before it is known whether there is room.
const ROOMS: [usize; 2] = [0, 2048];

/// A frame that the seller wrote.
pub fn walk(direction: Direction, frame: &[u8]) -> Outcome {
    let start = match direction {
        Direction::T => 17,
        Direction::R => 9,
    };
    let part = Part {
        count: u16::from_le_bytes([frame[start - 2], frame[start - 1]]),
        start,
        len: frame.len() - start,
    };
    // 17 comes before 9, and before 14.
    let outside = Part {
        len: part.len + 1,
        ..part
    };
    let cut = Part {
        len: part.len - 1,
        ..part
    };
    let parts = [part, outside, cut];
    let written = parts.map(|part| from_part(direction, frame, part));
    let asked = parts.map(|part| asked(direction, frame, part));
    let all = written.into_iter().chain(asked);
    let table = from_table(direction, usize::from(part.count));
    match first_difference(all.chain([table])) {
        Outcome::Refused => Outcome::Known,
        outcome => outcome,
    }
}

fn from_part(direction: Direction, lent: &[u8], part: Part) -> Outcome {
    let mut frame = Flat::default();
    frame.outcome.ty = lent[4];
    let at = match direction {
        Direction::T => 2,
        Direction::R => 0,
    };
    let Part { count, start, len } = part;
    frame.values[at..at + 3].copy_from_slice(&[count.into(), start as u64, len as u64]);
    in_rooms(|out| ours::write(direction, out, lent, &frame))
}

/// A table's rows and qids are not looked at: the names lie outside of what is lent.
fn from_table(direction: Direction, count: usize) -> Outcome {
    let (rows, qids) = (vec![[1, 1]; count], vec![Qid::default(); count]);
    in_rooms(|out| match direction {
        Direction::T => ours::write_twalk(out, &[], (1, 1, 2), &rows),
        Direction::R => ours::write_rwalk(out, 1, &qids),
    })
}

fn in_rooms(write: impl Fn(&mut [u8]) -> ours::Outcome) -> Outcome {
    first_difference(ROOMS.into_iter().map(|room| refused(17, room, &write)))
}

/// The first element, the last, and one that there is not.
fn asked(direction: Direction, frame: &[u8], part: Part) -> Outcome {
    let find = match direction {
        Direction::T => ours::name_at,
        Direction::R => ours::qid_at,
    };
    let count = usize::from(part.count);
    let owed = (told(17, 0), [UNWRITTEN; 2]);
    let mut answers = [0, count - 1, count]
        .map(|i| find(frame, part, i))
        .into_iter();
    match answers.find(|answer| *answer != owed) {
        Some(ours) => differs(format!("{ours:?}"), format!("{owed:?}")),
        None => Outcome::Refused,
    }
}
