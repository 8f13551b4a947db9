//! F15.1: room for 64 open requests, 64 fids and 256 places.

use super::frames::*;
use super::tracing::*;

#[test]
fn requests_fill_at_the_request() {
    let mut frames = rooted(9);
    frames.extend((0..64).map(|tag| (flush(tag, 999), 0)));
    frames.extend([
        (attach(64, 9, NO_FID), 22),
        (flush(64, 999), 24),
        (version(65_535), 24),
        (flush(3, 999), 20),
        (getattr(64, 0), 23),
        (rflush(3), 0),
        (flush(64, 999), 0),
        (flush(65, 999), 24),
        (rflush(64), 0),
        (flush(65, 3), 0),
    ]);
    traced("24 comes last, and a closed row is free", frames, &[]);
}

/// 64 fids, all at the root of fid 0.
fn fids() -> Frames {
    let mut frames = rooted(0);
    frames.extend((1..64).flat_map(|fid| walked(0, fid, &[])));
    frames
}

#[test]
fn fids_fill_at_the_reply() {
    let mut frames = fids();
    frames.extend([
        (walk(1, 0, 64, &[]), 0),
        (rwalk(1, 0), 24),
        (attach(2, 65, NO_FID), 0),
        (rattach(2), 24),
        (xattrwalk(3, 0, 66), 0),
        (rxattrwalk(3), 24),
        (auth(4, 67), 0),
        (rauth(4), 24),
        (walk(5, 7, 7, &["a"]), 0),
        (rwalk(5, 1), 0),
        (lcreate(5, 8, "b"), 0),
        (rlcreate(5), 0),
        (clunk(5, 9), 0),
        (rclunk(5), 0),
        (rwalk(1, 0), 0),
        (rattach(2), 24),
    ]);
    let paths = &[
        (7, Some("/a")),
        (8, Some("/b")),
        (9, None),
        (64, Some("")),
        (65, None),
    ];
    let why = "a known fid needs no row, and a reply may come again";
    traced(why, frames, paths);
}

/// A root and so many children of it in turn, in fid 1.
fn places(count: usize) -> Frames {
    let mut frames = rooted(0);
    frames.extend(walked(0, 1, &["x"]));
    for _ in 1..count {
        frames.extend(walked(1, 1, &["..", "y"]));
    }
    frames
}

#[test]
fn places_fill_and_are_never_free_again() {
    let mut frames = places(255);
    frames.extend(accepted([clunk(1, 1), rclunk(1)]));
    frames.extend(walked(0, 2, &[]));
    frames.extend(walked(0, 3, &["..", ".."]));
    frames.extend([
        (walk(1, 0, 4, &["a"]), 0),
        (rwalk(1, 1), 24),
        (lcreate(2, 0, "a"), 0),
        (rlcreate(2), 24),
        (attach(3, 5, NO_FID), 0),
        (rattach(3), 24),
        (version(4), 0),
        (rversion(4, "9P2000.L"), 0),
    ]);
    frames.extend(rooted(0));
    frames.extend(walked(0, 1, &["z"]));
    let why = "24 at the reply, '..' makes none, and an Rversion empties";
    traced(why, frames, &[(0, Some("")), (1, Some("/z")), (2, None)]);
}

#[test]
fn a_walk_takes_all_its_places_or_none() {
    let mut frames = places(253);
    frames.extend([(walk(1, 0, 4, &["a", "b", "c"]), 0), (rwalk(1, 3), 24)]);
    frames.extend(accepted([walk(2, 0, 5, &["a", "..", "b"]), rwalk(2, 3)]));
    frames.extend([(walk(3, 0, 6, &["a"]), 0), (rwalk(3, 1), 24)]);
    let paths = &[(4, None), (5, Some("/b")), (6, None)];
    traced("'a/../b' uses the last two", frames, paths);
}
