//! Frames to make traces of: drawn, with the tag and the fids that a session looks at put in, and
//! harmed.

use std::collections::BTreeMap;
use std::sync::LazyLock;

use judge::cases::{self, bytes, damaged, header, sized, types, unknown, DIRECTIONS};
use judge::Direction;
use p9::draw::{Draw, Draws};
use p9::protocol::*;

use crate::reading::direction_of;

/// Where a request has its fid, and Tattach, Twalk and Txattrwalk their second one.
const FID: usize = 7;
const SECOND: usize = 11;

/// It answers any request.
pub const RLERROR: u8 = 7;
pub const TLCREATE: u8 = 14;
pub const TXATTRWALK: u8 = 30;
pub const TVERSION: u8 = 100;
pub const TAUTH: u8 = 102;
pub const TATTACH: u8 = 104;
pub const TFLUSH: u8 = 108;
pub const TWALK: u8 = 110;
const RREAD: u8 = 117;
const TWRITE: u8 = 118;
pub const TCLUNK: u8 = 120;
pub const TREMOVE: u8 = 122;

/// A data's count above the limit, and a walk's.
const OVER: [u8; 4] = 33_554_433_u32.to_le_bytes();
const MANY: [u8; 2] = 17_u16.to_le_bytes();

const NAMES: [&str; 9] = [
    "a",
    "b",
    "höhe",
    "..",
    "..",
    ".",
    "",
    "a/b",
    "\u{1}\n\u{1b}",
];

/// All types, and the place of each in the seller's lists.
static TYPES: LazyLock<BTreeMap<u8, (Direction, usize)>> = LazyLock::new(|| {
    let draws = &mut Draws::new(0);
    let places = DIRECTIONS.map(|way| (0..types(way)).map(move |place| (way, place)));
    let typed = |(way, place)| (cases::drawn(way, place, draws)[4], (way, place));
    places.into_iter().flatten().map(typed).collect()
});

/// The types of the direction, in order.
pub fn all_types(direction: Direction) -> Vec<u8> {
    let own = TYPES.iter().filter(|(_, (way, _))| *way == direction);
    own.map(|(ty, _)| *ty).collect()
}

/// Of drawn values, but for the tag.
pub fn drawn(ty: u8, tag: u16, draws: &mut Draws) -> Vec<u8> {
    let (direction, place) = TYPES[&ty];
    let mut frame = cases::drawn(direction, place, draws);
    frame[5..7].copy_from_slice(&tag.to_le_bytes());
    frame
}

/// A request whose fields from `FID` on begin with these fids.
pub fn with_fids(ty: u8, tag: u16, fids: &[u32], draws: &mut Draws) -> Vec<u8> {
    let mut frame = drawn(ty, tag, draws);
    for (at, fid) in [FID, SECOND].into_iter().zip(fids) {
        frame[at..at + 4].copy_from_slice(&fid.to_le_bytes());
    }
    frame
}

pub fn flush(tag: u16, oldtag: u16) -> Vec<u8> {
    asked(tag, Tmessage::Flush(Tflush { oldtag }))
}

pub fn walk(tag: u16, fid: u32, newfid: u32, wnames: Vec<P9String>) -> Vec<u8> {
    let walk = Twalk {
        fid,
        newfid,
        wnames,
    };
    asked(tag, Tmessage::Walk(walk))
}

pub fn lcreate(tag: u16, fid: u32, name: P9String) -> Vec<u8> {
    let (flags, mode, gid) = (0, 0o644, 0);
    let create = Tlcreate {
        fid,
        name,
        flags,
        mode,
        gid,
    };
    asked(tag, Tmessage::Lcreate(create))
}

pub fn rwalk(tag: u16, qids: usize, draws: &mut Draws) -> Vec<u8> {
    let wqids = (0..qids).map(|_| Qid::draw(draws)).collect();
    let msg = Rmessage::Walk(Rwalk { wqids });
    bytes(&Rframe { tag, msg })
}

fn asked(tag: u16, msg: Tmessage) -> Vec<u8> {
    bytes(&Tframe { tag, msg: Ok(msg) })
}

pub fn name(name: &str) -> P9String {
    P9String::new(name).expect("no zero byte is in it")
}

/// Often one that a walk treats otherwise, or that only looks so.
pub fn drawn_name(draws: &mut Draws) -> P9String {
    match draws.below(8) {
        0 => P9String::draw(draws),
        _ => name(draws.one_of(&NAMES)),
    }
}

/// The same frame, and some bytes after its fields.
pub fn tailed(mut frame: Vec<u8>, draws: &mut Draws) -> Vec<u8> {
    let tail = draws.one_of(&[1, 2, 7, 40]);
    frame.extend(draws.bytes(tail));
    resized(frame)
}

/// A frame in its place that the codec is likely to refuse, mostly with the same tag.
pub fn harmed(frame: Vec<u8>, draws: &mut Draws) -> Vec<u8> {
    let tag = u16::from_le_bytes([frame[5], frame[6]]);
    let direction = direction_of(frame[4]);
    let request = direction == Direction::T;
    let harmed = match draws.below(7) {
        0 => cut(frame, draws),
        1 => of_no_type(direction, tag, draws),
        2 if request => put(drawn(TWRITE, tag, draws), 19, &OVER),
        2 => put(drawn(RREAD, tag, draws), 7, &OVER),
        3 if request => put(drawn(TWALK, tag, draws), 15, &MANY),
        3 => put(drawn(TWALK + 1, tag, draws), 7, &MANY),
        4 => {
            let byte = draws.one_of(&[0, 0x80, 0xff]);
            put(lcreate(tag, 1, name("name")), 13 + draws.below(4), &[byte])
        }
        _ => damaged(frame, draws),
    };
    resized(harmed)
}

fn cut(mut frame: Vec<u8>, draws: &mut Draws) -> Vec<u8> {
    frame.truncate(7 + draws.below(frame.len() - 6));
    frame
}

fn of_no_type(direction: Direction, tag: u16, draws: &mut Draws) -> Vec<u8> {
    let mut frame = header(0, draws.one_of(unknown(direction)), tag);
    let body = draws.below(20);
    frame.extend(draws.bytes(body));
    frame
}

fn put(mut frame: Vec<u8>, at: usize, bytes: &[u8]) -> Vec<u8> {
    frame[at..at + bytes.len()].copy_from_slice(bytes);
    frame
}

/// A trace is cut by the sizes, so each has to be its frame's.
pub fn resized(mut frame: Vec<u8>) -> Vec<u8> {
    frame.resize(frame.len().max(7), 0);
    let size = frame.len() as u32;
    sized(frame, size)
}
