//! F15.6 and F15.7: what a reply answers, and what it does.

use super::frames::*;
use super::tracing::*;

#[test]
fn a_reply_answers_an_open_request() {
    let frames = vec![
        (rflush(1), 21),
        (flush(1, 9), 0),
        (rclunk(1), 21),
        (rflush(2), 21),
        (version(1), 20),
        (rflush(1), 0),
        (rflush(1), 21),
        (rlerror(1), 21),
    ];
    traced("21: no tag, another type, answered already", frames, &[]);
}

#[test]
fn a_refused_reply_leaves_its_request_open() {
    let mut frames = rooted(0);
    frames.extend([
        (walk(1, 0, 5, &["a"]), 0),
        (frame(111, 1, &[1, 0]), 1),
        (getattr(1, 0), 20),
        (rwalk(1, 1), 0),
    ]);
    traced("refused by the codec", frames, &[(5, Some("/a"))]);

    let mut frames = rooted(0);
    frames.extend([
        (walk(1, 0, 5, &["a"]), 0),
        (walk(2, 0, 5, &["b"]), 0),
        (rwalk(2, 1), 0),
        (rwalk(1, 1), 22),
        (getattr(1, 0), 20),
        (flush(3, 1), 0),
        (rflush(3), 0),
        (getattr(1, 0), 0),
    ]);
    traced("until an Rflush of it", frames, &[(5, Some("/b"))]);

    let mut frames = rooted(0);
    frames.extend([
        (clunk(1, 0), 0),
        (clunk(2, 0), 0),
        (rclunk(1), 0),
        (rclunk(2), 23),
        (getattr(2, 0), 20),
        (version(3), 0),
        (rversion(3, ""), 0),
        (flush(2, 2), 0),
    ]);
    traced("or an Rversion", frames, &[(0, None)]);
}

#[test]
fn what_was_asked_is_asked_again() {
    let frames = vec![
        (attach(1, 0, NO_FID), 0),
        (attach(2, 0, NO_FID), 0),
        (rattach(1), 0),
        (rattach(2), 22),
    ];
    traced(
        "Rattach: the fid is in use by now",
        frames,
        &[(0, Some(""))],
    );

    let frames = vec![
        (auth(1, 8), 0),
        (rauth(1), 0),
        (attach(1, 0, 8), 0),
        (clunk(2, 8), 0),
        (rclunk(2), 0),
        (rattach(1), 23),
    ];
    traced("Rattach: the afid is gone", frames, &[(0, None), (8, None)]);

    let frames = vec![
        (auth(1, 8), 0),
        (auth(2, 8), 0),
        (rauth(1), 0),
        (rauth(2), 22),
    ];
    traced("Rauth: the afid is in use by now", frames, &[]);
}

/// By each reply that gives, moves or drops a fid, and by no other.
#[test]
fn the_fid_may_be_gone_by_then() {
    for (why, asked, reply) in [
        ("a walk by no names", walk(1, 0, 5, &[]), rwalk(1, 0)),
        ("newfid = fid", walk(1, 0, 0, &["a"]), rwalk(1, 1)),
        ("Rlcreate", lcreate(1, 0, "a"), rlcreate(1)),
        ("Rxattrwalk", xattrwalk(1, 0, 5), rxattrwalk(1)),
        ("Rclunk", clunk(1, 0), rclunk(1)),
        ("Rremove", remove(1, 0), rremove(1)),
        ("Rlerror to a clunk", clunk(1, 0), rlerror(1)),
        ("Rlerror to a remove", remove(1, 0), rlerror(1)),
    ] {
        let mut frames = rooted(0);
        frames.push((asked, 0));
        frames.extend(accepted([clunk(2, 0), rclunk(2)]));
        frames.push((reply, 23));
        traced(why, frames, &[(0, None), (5, None)]);
    }

    let mut frames = rooted(0);
    frames.push((getattr(1, 0), 0));
    frames.extend(accepted([clunk(2, 0), rclunk(2)]));
    frames.push((frame(25, 1, &[0; 153]), 0));
    traced("one that changes no fid asks nothing", frames, &[(0, None)]);
}

#[test]
fn a_fid_is_dropped_whatever_is_said() {
    for (why, asked, reply) in [
        ("Rclunk", clunk(1, 5), rclunk(1)),
        ("Rremove", remove(1, 5), rremove(1)),
        ("Rlerror to a clunk", clunk(1, 5), rlerror(1)),
        ("Rlerror to a remove", remove(1, 5), rlerror(1)),
    ] {
        let mut frames = rooted(0);
        frames.extend(walked(0, 5, &["a"]));
        frames.extend(accepted([asked, reply]));
        frames.push((getattr(1, 5), 23));
        traced(why, frames, &[(0, Some("")), (5, None)]);
    }
    let mut frames = rooted(0);
    frames.extend(accepted([
        getattr(1, 0),
        rlerror(1),
        walk(1, 0, 5, &["a"]),
        rlerror(1),
    ]));
    traced(
        "no other error drops or gives",
        frames,
        &[(0, Some("")), (5, None)],
    );
}

#[test]
fn a_flush_closes_two_tags() {
    let mut frames = rooted(0);
    frames.extend([
        (getattr(2, 0), 0),
        (flush(3, 2), 0),
        (rflush(3), 0),
        (frame(25, 2, &[0; 153]), 21),
        (getattr(2, 0), 0),
        (getattr(3, 0), 0),
    ]);
    traced("Rflush: its own and the old one", frames, &[]);

    let mut frames = rooted(0);
    frames.extend([
        (getattr(2, 0), 0),
        (flush(3, 2), 0),
        (rlerror(3), 0),
        (getattr(2, 0), 20),
        (flush(3, 77), 0),
        (rflush(3), 0),
    ]);
    traced(
        "Rlerror leaves the old one, which nobody looks up",
        frames,
        &[],
    );

    let frames = vec![(flush(3, 3), 0), (rflush(3), 0), (flush(3, 3), 0)];
    traced("a flush of itself", frames, &[]);
}

#[test]
fn a_version_empties_all() {
    for said in ["9P2000.L", "9P2000", "unknown", ""] {
        let mut frames = rooted(0);
        frames.extend(walked(0, 5, &["a"]));
        frames.extend([
            (getattr(7, 5), 0),
            (version(1), 0),
            (getattr(8, 5), 0),
            (rversion(1, said), 0),
            (frame(25, 7, &[0; 153]), 21),
            (getattr(7, 5), 23),
        ]);
        traced("whatever its text says", frames, &[(0, None), (5, None)]);
    }
    let mut frames = rooted(0);
    frames.extend(accepted([version(1), rlerror(1)]));
    traced("Rlerror empties nothing", frames, &[(0, Some(""))]);
}
