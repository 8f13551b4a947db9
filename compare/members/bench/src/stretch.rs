//! A stretch gone through from its first frame to its last.

use std::hint::black_box;

use judge::stretch::whole;
use ours::{CrossedR, CrossedT, Crossing};
use p9::protocol::{Rframe, Tframe, WireFormat};

use crate::clock::{least, Place};
use crate::{in_rust, rows_of};

/// A recorded session: 224 frames of both directions.
const SESSION: &[u8] = include_bytes!("../../../../examples/diod-session.bin");

const LEN: usize = 1_000_000;

/// The row. There is none, and the answer is `false`, unless both accept as many frames.
pub fn row_of_a_million() -> bool {
    let bytes = SESSION.repeat(LEN.div_ceil(SESSION.len()));
    let frames = 224 * (bytes.len() / SESSION.len());
    if [ours, in_rust::listed, theirs].map(|list| list(&bytes)) != [frames; 3] {
        eprintln!("bench: not every frame of the session is accepted by both");
        return false;
    }
    let mut listed = |turns, _: Place| {
        for _ in 0..turns {
            black_box(ours(black_box(&bytes)));
        }
    };
    let mut in_rust = |turns, _: Place| {
        for _ in 0..turns {
            black_box(in_rust::listed(black_box(&bytes)));
        }
    };
    let mut decoded = |turns, _: Place| {
        for _ in 0..turns {
            black_box(theirs(black_box(&bytes)));
        }
    };
    let [ours, in_rust, theirs] = least([&mut listed, &mut in_rust, &mut decoded]);
    rows_of("stretch-1MB", "list", [ours, in_rust], theirs);
    true
}

/// How many frames are accepted, asked position by position; each goes to the reader of its
/// direction.
fn ours(bytes: &[u8]) -> usize {
    let (mut at, mut accepted) = (0, 0);
    let (mut request, mut reply) = (CrossedT::default(), CrossedR::default());
    loop {
        let step = ours::frame_at(bytes, at);
        if !step.held {
            return accepted;
        }
        let frame = &bytes[..step.place];
        accepted += usize::from(match step.ty % 2 {
            0 => {
                request.read_body(frame, at, step.ty);
                black_box(&request).outcome.refusal == 0
            }
            _ => {
                reply.read_body(frame, at, step.ty);
                black_box(&reply).outcome.refusal == 0
            }
        });
        at = step.place;
    }
}

/// The seller's crate has no stretches: each frame is cut by its size, and its reader asked.
fn theirs(mut left: &[u8]) -> usize {
    let mut accepted = 0;
    while let Ok(frame) = whole(left) {
        accepted += usize::from(match frame[4] % 2 {
            0 => black_box(&Tframe::decode(&mut &*frame)).is_ok(),
            _ => black_box(&Rframe::decode(&mut &*frame)).is_ok(),
        });
        left = &left[frame.len()..];
    }
    accepted
}
