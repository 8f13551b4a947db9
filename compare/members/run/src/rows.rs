//! The rows of docs/DIFFERENCES.md that no frame of a drawn record reaches, by their numbers there.
//!
//! Of 3, 4 and 5 only ours is run: the seller's crate writes 4 GB for each, which `compare/oracle
//! wrap` has it do. Ours refuses 4 and 5 before it looks at the data, so that no memory is filled.

use judge::cases::bytes;
use judge::{written, Direction};
use ours::{Flat, Qid};
use p9::draw::{Draw, Draws};
use p9::protocol::{P9String, Rframe, Rmessage, Rwalk, Tframe, Tmessage, Twalk, WireFormat};

use crate::compare::{differs, refused, Outcome};
use crate::limits::MOST;
use crate::theirs::{self, refusal};

pub const ROWS: [u8; 7] = [3, 4, 5, 7, 8, 13, 14];

/// The largest Rread's data.
const LONGEST_DATA: usize = 4_294_967_295 - 11;

const ROOM: usize = 64;

pub fn row(row: u8) -> Outcome {
    let outcome = match row {
        3 => names(vec![[0, MOST]; MOST], 17),
        4 => match rread(LONGEST_DATA, 11) {
            Outcome::Refused => rread(LONGEST_DATA + 1, 10),
            outcome => outcome,
        },
        5 => rread(1 << 32, 10),
        7 => both(
            names(vec![[0, 0]; MOST + 1], 17),
            &their_names(MOST + 1),
            Some(8),
        ),
        8 => both(qids(), &their_qids(MOST + 1), Some(8)),
        13 => both(read(Direction::T, &their_names(17)), &their_names(17), None),
        _ => both(read(Direction::R, &their_qids(17)), &their_qids(17), None),
    };
    match outcome {
        Outcome::Refused => Outcome::Known,
        outcome => outcome,
    }
}

/// Ours, if the Rust answers the frame's writing so.
fn both(ours: Outcome, frame: &impl WireFormat, owed: Option<u8>) -> Outcome {
    let theirs = written(frame).err().as_ref().map(refusal);
    match theirs == owed {
        true => ours,
        false => differs(format!("{owed:?}"), format!("{theirs:?}")),
    }
}

/// What the Rust writes and reads again is refused by ours.
fn read(direction: Direction, frame: &impl WireFormat) -> Outcome {
    let bytes = bytes(frame);
    match theirs::sellers(direction, &bytes).flat.outcome.refusal {
        0 if ours::read(direction, &bytes).outcome.refusal == 17 => Outcome::Refused,
        theirs => differs("17, and 0".into(), theirs.to_string()),
    }
}

fn their_names(count: usize) -> Tframe {
    let name = P9String::new("").expect("a name");
    let walk = Twalk {
        fid: 1,
        newfid: 2,
        wnames: vec![name; count],
    };
    let msg = Ok(Tmessage::Walk(walk));
    Tframe { tag: 1, msg }
}

fn their_qids(count: usize) -> Rframe {
    let wqids = vec![Draw::draw(&mut Draws::new(8)); count];
    let msg = Rmessage::Walk(Rwalk { wqids });
    Rframe { tag: 1, msg }
}

/// A Twalk from a table over the longest string.
fn names(rows: Vec<[usize; 2]>, refusal: u8) -> Outcome {
    let lent = vec![b'a'; MOST];
    refused(refusal, ROOM, |out| {
        ours::write_twalk(out, &lent, (1, 1, 2), &rows)
    })
}

fn qids() -> Outcome {
    let qids = vec![Qid::default(); MOST + 1];
    refused(17, ROOM, |out| ours::write_rwalk(out, 1, &qids))
}

/// The zeros are not looked at, and take no memory.
fn rread(count: usize, refusal: u8) -> Outcome {
    let lent = vec![0; count];
    let mut frame = Flat::default();
    frame.outcome.ty = 117;
    frame.outcome.tag = 1;
    frame.values[1] = count as u64;
    refused(refusal, ROOM, |out| {
        ours::write(Direction::R, out, &lent, &frame)
    })
}
