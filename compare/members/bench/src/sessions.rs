//! A recorded session followed frame by frame, beside the reading of its frames.

use std::hint::black_box;

use sheafsledge::session::steps;

use crate::clock::{least, Place};
use crate::{in_rust, row};

/// 224 frames of both directions, all of which a session accepts.
const SESSION: &[u8] = include_bytes!("../../../../examples/diod-session.bin");

/// The row. There is none, and the answer is `false`, unless every frame is accepted.
pub fn row_of_a_session() -> bool {
    if [followed(SESSION), in_rust::listed(SESSION)] != [224; 2] {
        eprintln!("bench: not every frame of the session is followed");
        return false;
    }
    let mut follow = |turns, _: Place| {
        for _ in 0..turns {
            black_box(followed(black_box(SESSION)));
        }
    };
    let mut read = |turns, _: Place| {
        for _ in 0..turns {
            black_box(in_rust::listed(black_box(SESSION)));
        }
    };
    let [follow, read] = least([&mut follow, &mut read]);
    row("session-224-in-Rust", "follow", follow, read);
    true
}

/// How many frames a session accepts.
fn followed(stretch: &[u8]) -> usize {
    let steps = steps(stretch).flatten();
    steps.filter(|step| step.refusal.is_none()).count()
}
