//! 9P2000 beside 9P2000.L: the same records, both through the crate in Rust.

use std::hint::black_box;

use sheafsledge::{plain, Rframe, Tframe};

use crate::clock::{least, Output, Place};
use crate::frames;
use crate::in_rust::{same, Frame};
use crate::row;

/// A Tattach: the fids 1 and none, `station` and `/spectrometer`; in 9P2000.L also the number 1000.
const ATTACH: &[u8] =
    b"\x27\0\0\0\x68\x01\0\x01\0\0\0\xff\xff\xff\xff\x07\0station\x0d\0/spectrometer";
const ATTACH_L: &[u8] =
    b"\x2b\0\0\0\x68\x01\0\x01\0\0\0\xff\xff\xff\xff\x07\0station\x0d\0/spectrometer\xe8\x03\0\0";

pub fn rows() -> bool {
    let (requests, replies) = (frames::requests(), frames::replies());
    let shared = |(name, _): &&(&str, Vec<u8>)| !matches!(*name, "Rgetattr" | "Rreaddir-8KiB");
    let mut requests = requests.iter().filter(shared);
    let mut replies = replies.iter().filter(shared);
    requests.all(|(name, frame)| rows_of::<plain::Tframe, Tframe>(name, [frame, frame]))
        && replies.all(|(name, frame)| rows_of::<plain::Rframe, Rframe>(name, [frame, frame]))
        && rows_of::<plain::Tframe, Tframe>("Tattach", [ATTACH, ATTACH_L])
}

/// The rows of a record. There are none, and the answer is `false`, unless both dialects read it and
/// write it again.
fn rows_of<'a, Plain: Frame<'a>, L: Frame<'a>>(name: &str, [plain, l]: [&'a [u8]; 2]) -> bool {
    let (Some(in_plain), Some(in_l)) = (same::<Plain>(plain), same::<L>(l)) else {
        eprintln!("bench: the two dialects do not read {name} and write it again");
        return false;
    };
    let mut plain_read = |turns, _: Place| {
        for _ in 0..turns {
            black_box(&Plain::read(black_box(plain)));
        }
    };
    let mut l_read = |turns, _: Place| {
        for _ in 0..turns {
            black_box(&L::read(black_box(l)));
        }
    };
    let [ours, theirs] = least([&mut plain_read, &mut l_read]);
    row(&format!("{name}-in-9P2000"), "read", ours, theirs);
    let mut output = Output::new(plain.len());
    let mut plain_write = |turns, place| {
        let out = output.at(place);
        for _ in 0..turns {
            black_box(&black_box(&in_plain).write(black_box(&mut *out)));
        }
    };
    let mut output = Output::new(l.len());
    let mut l_write = |turns, place| {
        let out = output.at(place);
        for _ in 0..turns {
            black_box(&black_box(&in_l).write(black_box(&mut *out)));
        }
    };
    let [ours, theirs] = least([&mut plain_write, &mut l_write]);
    row(&format!("{name}-in-9P2000"), "write", ours, theirs);
    true
}
