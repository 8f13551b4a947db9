//! Frames at the limits: the longest strings, walks of more elements than the paper allows, and data at
//! the reading limit.

use judge::cases::{bytes, damaged};
use judge::Direction;
use p9::draw::{Draw, Draws, MOST_ELEMENTS};
use p9::protocol::{
    Data, P9String, Rframe, Rmessage, Rread, Rreaddir, Rreadlink, Rwalk, Tframe, Tmessage,
    Tsymlink, Tversion, Twalk, Twrite,
};

use crate::kinds::{Asked, Of};

const READING_LIMIT: usize = 33_554_432;

/// The longest that a string is, and the most elements that a count of two bytes says.
pub const MOST: usize = 65_535;

type Framed = (Direction, Vec<u8>);

/// What is asked at a turn. Data of 33 MB is asked about once; then every other frame is damaged, and
/// the others are also written.
pub fn limit(turn: usize, draws: &mut Draws) -> Vec<Asked> {
    let long = [
        |count| t(twrite(count)),
        |count| r(Rmessage::Read(Rread { data: data(count) })),
        |count| r(Rmessage::Readdir(Rreaddir { data: data(count) })),
    ];
    if let Some(frame) = long.get(turn) {
        let counts = [READING_LIMIT, READING_LIMIT + 1];
        return counts
            .into_iter()
            .flat_map(|count| both(frame(count), Of::Data))
            .collect();
    }
    let (direction, frame) = match turn % 6 {
        0 => t(Tmessage::Version(Tversion {
            msize: Draw::draw(draws),
            version: string(draws),
        })),
        1 => r(Rmessage::Readlink(Rreadlink {
            target: string(draws),
        })),
        2 => return over(twalk(elements(draws), draws), draws),
        3 => return over(rwalk(elements(draws), draws), draws),
        4 => t(Tmessage::Symlink(Tsymlink {
            fid: Draw::draw(draws),
            name: string(draws),
            symtgt: string(draws),
            gid: Draw::draw(draws),
        })),
        _ => return counted(draws).into_iter().map(read).collect(),
    };
    match draws.below(2) {
        0 => both((direction, frame), Of::Written),
        _ => vec![read((direction, damaged(frame, draws)))],
    }
}

fn read((direction, bytes): Framed) -> Asked {
    let of = Of::Read(direction);
    Asked { of, bytes }
}

/// Read, and then written from other bytes.
fn both(frame: Framed, written: fn(Direction) -> Of) -> Vec<Asked> {
    let of = written(frame.0);
    let bytes = frame.1.clone();
    vec![read(frame), Asked { of, bytes }]
}

/// A walk of more than sixteen elements: read as it is and damaged, and written.
fn over((direction, bytes): Framed, draws: &mut Draws) -> Vec<Asked> {
    let damaged = (direction, damaged(bytes.clone(), draws));
    let of = Of::Over(direction);
    vec![
        read((direction, bytes.clone())),
        read(damaged),
        Asked { of, bytes },
    ]
}

/// One too many, as many as a guest has sent, and as many as a count of two bytes holds.
fn elements(draws: &mut Draws) -> usize {
    draws.one_of(&[MOST_ELEMENTS + 1, 40, MOST])
}

pub fn twalk(count: usize, draws: &mut Draws) -> Framed {
    t(Tmessage::Walk(Twalk {
        fid: Draw::draw(draws),
        newfid: Draw::draw(draws),
        wnames: vec![P9String::draw(draws); count],
    }))
}

pub fn rwalk(count: usize, draws: &mut Draws) -> Framed {
    let wqids = vec![Draw::draw(draws); count];
    r(Rmessage::Walk(Rwalk { wqids }))
}

/// The most that a count of two bytes holds, or one less.
fn most(draws: &mut Draws) -> usize {
    MOST - draws.below(2)
}

pub fn string(draws: &mut Draws) -> P9String {
    let letter = draws.one_of(&["a", "é", "€", "😀"]);
    let count = most(draws);
    let mut text = letter.repeat(count / letter.len());
    text.extend((text.len()..count).map(|_| 'a'));
    P9String::new(text).expect("no longer than a string may be")
}

fn twrite(count: usize) -> Tmessage {
    Tmessage::Write(Twrite {
        fid: 1,
        offset: 2,
        data: data(count),
    })
}

fn data(count: usize) -> Data {
    Data(vec![3; count])
}

/// A data count at the limit and one more, with no data after it.
fn counted(draws: &mut Draws) -> Vec<Framed> {
    let data = data(0);
    let (direction, frame) = match draws.below(3) {
        0 => t(twrite(0)),
        1 => r(Rmessage::Read(Rread { data })),
        _ => r(Rmessage::Readdir(Rreaddir { data })),
    };
    let count = |count: usize| {
        let mut frame = frame.clone();
        let at = frame.len() - 4;
        frame[at..].copy_from_slice(&(count as u32).to_le_bytes());
        (direction, frame)
    };
    vec![count(READING_LIMIT), count(READING_LIMIT + 1)]
}

fn t(msg: Tmessage) -> Framed {
    let msg = Ok(msg);
    (Direction::T, bytes(&Tframe { tag: 1, msg }))
}

fn r(msg: Rmessage) -> Framed {
    (Direction::R, bytes(&Rframe { tag: 1, msg }))
}
