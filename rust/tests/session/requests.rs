//! F15.5: what a request needs.

use super::frames::*;
use super::tracing::*;

#[test]
fn a_tag_is_open_until_it_is_answered() {
    let mut frames = rooted(0);
    frames.extend([
        (getattr(7, 0), 0),
        (clunk(7, 0), 20),
        (rlerror(7), 0),
        (clunk(7, 0), 0),
    ]);
    traced("20: the tag is open", frames, &[(0, Some(""))]);

    let frames = vec![(attach(7, 0, NO_FID), 0), (walk(7, 9, 0, &[]), 20)];
    traced("20 comes before 22 and 23", frames, &[(0, None)]);

    let frames = vec![
        (version(65_535), 0),
        (version(65_535), 20),
        (rversion(65_535, "9P2000.L"), 0),
        (flush(65_535, 0), 0),
    ];
    traced("65,535 is a tag like any other", frames, &[]);

    let frames = vec![(flush(1, 1), 0), (version(1), 20), (flush(1, 1), 20)];
    traced("Tversion and Tflush need a tag too", frames, &[]);
}

#[test]
fn a_fid_has_to_be_new() {
    let mut frames = rooted(0);
    frames.extend([
        (attach(2, 0, NO_FID), 22),
        (auth(2, 0), 22),
        (walk(2, 0, 0, &["a"]), 0),
    ]);
    traced("22: the fid is in use", frames, &[(0, Some(""))]);

    let mut frames = rooted(0);
    frames.extend([
        (walk(2, 9, 0, &[]), 22),
        (xattrwalk(2, 9, 0), 22),
        (attach(2, 0, 9), 22),
    ]);
    traced("22 comes before 23", frames, &[]);

    let frames = vec![(walk(1, 9, 9, &[]), 23), (xattrwalk(1, 9, 9), 23)];
    traced("newfid may be the fid, which has to be known", frames, &[]);

    let mut frames = rooted(0);
    frames.extend(accepted([xattrwalk(1, 0, 0), rxattrwalk(1)]));
    traced("also of a Txattrwalk", frames, &[(0, Some(""))]);
}

#[test]
fn a_fid_has_to_be_known() {
    let mut frames = rooted(0);
    frames.extend([
        (walk(2, 9, 5, &[]), 23),
        (xattrwalk(2, 9, 5), 23),
        (getattr(2, 9), 23),
        (clunk(2, 9), 23),
        (remove(2, 9), 23),
        (attach(2, 5, 9), 23),
    ]);
    traced("23: the fid is unknown", frames, &[(5, None), (9, None)]);

    let mut frames = rooted(0);
    frames.extend([
        (link(2, 0, 9, "a"), 0),
        (link(3, 9, 0, "a"), 23),
        (rename(3, 0, 9, "a"), 0),
        (rename(4, 9, 0, "a"), 23),
        (renameat(4, [0, 9], ["a", "b"]), 0),
        (renameat(5, [9, 0], ["a", "b"]), 23),
    ]);
    traced(
        "the first fid of the layout alone is looked up",
        frames,
        &[],
    );
}

#[test]
fn an_afid_may_be_none() {
    let frames = vec![
        (auth(1, NO_FID), 0),
        (rauth(1), 0),
        (attach(1, 0, NO_FID), 0),
        (rattach(1), 0),
        (walk(1, NO_FID, 1, &["a"]), 0),
        (rwalk(1, 1), 0),
        (clunk(1, NO_FID), 0),
        (rclunk(1), 0),
        (clunk(1, NO_FID), 23),
        (attach(1, 2, NO_FID), 0),
    ];
    let paths = &[(0, Some("")), (1, Some("/a")), (NO_FID, None)];
    traced(
        "4,294,967,295 is passed over in Tattach alone",
        frames,
        paths,
    );

    let mut frames = accepted([auth(1, 8), rauth(1), attach(1, 0, 8), rattach(1)]);
    frames.push((auth(1, 8), 22));
    traced("an afid is a fid", frames, &[(0, Some("")), (8, Some(""))]);
}

#[test]
fn the_codec_is_asked_first() {
    let frames = vec![
        (flush(1, 2), 0),
        (frame(108, 1, &[2]), 1),
        (frame(106, 1, &[]), 3),
        (walk(1, 9, 9, &["\0"]), 6),
        (walk(1, 9, 9, &["a"; 17]), 17),
        (frame(111, 9, &[17, 0]), 17),
        (rflush(1), 0),
    ];
    traced("its refusals come before 20 to 24", frames, &[]);
}
