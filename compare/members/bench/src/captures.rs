//! A stretch made a capture file, and the file made a stretch again, beside a plain copy of the
//! stretch. The seller's crate has no capture files.

use std::hint::black_box;

use sheafsledge::pcap::{export, import, HEADER, RECORD};

use crate::clock::{least, Place};

/// A recorded session: 224 frames of both directions.
const SESSION: &[u8] = include_bytes!("../../../../examples/diod-session.bin");

const LEN: usize = 1_000_000;

/// The rows. There are none, and the answer is `false`, unless the file is imported as it was exported.
pub fn rows_of_a_million() -> bool {
    let again = LEN.div_ceil(SESSION.len());
    let bytes = SESSION.repeat(again);
    let times = vec![[5, 6]; 224 * again];
    let mut file = vec![0; HEADER + bytes.len() + RECORD * times.len()];
    let (mut out, mut rows) = (vec![0; bytes.len()], vec![[0; 2]; times.len()]);
    let exported = export(&mut file, &bytes, &times) == Ok(file.len());
    let imported = import(&mut out, &mut rows, &file)
        .is_ok_and(|import| import.stretch == bytes && import.times == times);
    if !exported || !imported {
        eprintln!("bench: the session is not exported and imported again");
        return false;
    }
    let mut to = file.clone();
    let mut exports = |turns, _: Place| {
        for _ in 0..turns {
            let _ = black_box(export(black_box(&mut to), black_box(&bytes), &times));
        }
    };
    let mut imports = |turns, _: Place| {
        for _ in 0..turns {
            let _ = black_box(import(black_box(&mut out), &mut rows, black_box(&file)));
        }
    };
    let mut copied = vec![0; bytes.len()];
    let mut copies = |turns, _: Place| {
        for _ in 0..turns {
            black_box(&mut copied).copy_from_slice(black_box(&bytes));
        }
    };
    let [export, import, copy] = least([&mut exports, &mut imports, &mut copies]);
    println!("capture-1MB export {export:.1} - -");
    println!("capture-1MB import {import:.1} - -");
    println!("capture-1MB copy {copy:.1} - -");
    true
}
