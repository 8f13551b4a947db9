//! A damaged frame harms no other (F6.11): a stretch is listed again after bytes of one of its frames
//! were flipped, and all but that one entry has to be as it was.

use std::ops::Range;

use ours::{Flat, Outcome as Told};
use p9::draw::Draws;

use crate::compare::{differs, Outcome};
use crate::stretches::way;

/// What is told at a position, and of a frame there what is read of it in its place.
type Entry = (usize, Told, Option<Flat>);

/// A frame's own bytes that may be damaged start after its size.
const SIZE: usize = 4;

/// One of its frames, whichever it is, accepted or not, with up to three of its bytes flipped.
pub fn harmed(bytes: &[u8], draws: &mut Draws) -> Option<Outcome> {
    let before = listing(bytes);
    let frames = before.iter().filter(|(_, told, _)| told.held).count();
    if frames == 0 {
        return None;
    }
    let harmed = draws.below(frames);
    let (at, told, _) = &before[harmed];
    let damaged = flipped(bytes, at + SIZE..told.place, draws);
    let after = listing(&damaged);
    let same = |(k, (ours, theirs)): (usize, (&Entry, &Entry))| match k == harmed {
        true => (ours.0, ours.1.place, ours.1.held) == (theirs.0, theirs.1.place, theirs.1.held),
        false => ours == theirs,
    };
    let mut entries = after.iter().zip(&before).enumerate();
    let in_rust = || in_rust(bytes, &damaged, harmed);
    if after.len() == before.len() && entries.all(same) {
        return in_rust();
    }
    let shown = |listing: &[Entry]| format!("frame {harmed} harmed: {listing:?}");
    Some(differs(shown(&after), shown(&before)))
}

/// The same as the crate for Rust lists it.
fn in_rust(bytes: &[u8], damaged: &[u8], harmed: usize) -> Option<Outcome> {
    let before: Vec<_> = sheafsledge::stretch(bytes).collect();
    let after: Vec<_> = sheafsledge::stretch(damaged).collect();
    let same = (0..before.len().max(after.len())).all(|k| match (before.get(k), after.get(k)) {
        (Some(Ok(ours)), Some(Ok(theirs))) if k == harmed => {
            (ours.at, ours.size, ours.next) == (theirs.at, theirs.size, theirs.next)
        }
        (ours, theirs) => ours == theirs,
    });
    let shown = |listing| format!("frame {harmed} harmed: {listing:?}");
    (!same).then(|| differs(shown(&after), shown(&before)))
}

/// From 0 on, to the end or a refusal, which is the last.
fn listing(bytes: &[u8]) -> Vec<Entry> {
    let mut listing = Vec::new();
    let mut at = 0;
    loop {
        let told = ours::frame_at(bytes, at);
        let body = told.held.then(|| {
            let held = bytes.get(..told.place).unwrap_or(bytes);
            ours::read_body(way(told.ty), held, at, told.ty)
        });
        let (held, next) = (told.held, told.place);
        listing.push((at, told, body));
        if !held || next <= at {
            return listing;
        }
        at = next;
    }
}

fn flipped(bytes: &[u8], range: Range<usize>, draws: &mut Draws) -> Vec<u8> {
    let mut damaged = bytes.to_vec();
    for _ in 0..1 + draws.below(3) {
        damaged[range.start + draws.below(range.len())] ^= 1 << draws.below(8);
    }
    damaged
}
