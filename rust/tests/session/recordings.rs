//! F15.2, F15.8 and F15.10: trailers, what a step tells, and the room for a path.

use sheafsledge::session::{seal, steps, Recording, Session};
use sheafsledge::{Fid, Refusal};

use super::frames::*;

#[test]
fn a_trailer_is_that_of_its_frames() {
    let (a, b) = (flush(1, 2), rflush(1));
    let stretch = [a, b].concat();
    // 16 bytes, 2 frames, the last at 9.
    let trailer = [16, 0, 0, 0, 2, 0, 0, 0, 9, 0, 0, 0];
    assert_eq!(seal(&stretch), Ok(trailer));
    let file = [&stretch[..], &trailer].concat();
    let opened = Recording::open(&file).map(|recording| recording.stretch());
    assert_eq!(opened, Ok(&stretch[..]));
    for at in 16..28 {
        for bit in [1, 128] {
            let mut file = file.clone();
            file[at] ^= bit;
            assert_eq!(Recording::open(&file), Err(Refusal::Trailer), "byte {at}");
        }
    }
    for end in 0..28 {
        assert_eq!(
            Recording::open(&file[..end]),
            Err(Refusal::Trailer),
            "{end}"
        );
    }
    assert_eq!(seal(&[]), Ok([0; 12]), "no frame: the last is at 0");
    assert!(Recording::open(&[0; 12]).is_ok());
    let sealed_twice = [&file[..], &trailer].concat();
    assert_eq!(Recording::open(&sealed_twice), Err(Refusal::Trailer));
    let cut = [&stretch[..15], &[15, 0, 0, 0, 1, 0, 0, 0, 0, 0, 0, 0]].concat();
    assert_eq!(
        Recording::open(&cut),
        Err(Refusal::Trailer),
        "it stops at 9"
    );
}

#[test]
fn a_stretch_that_stops_has_no_trailer() {
    let stretch = [flush(1, 2), vec![6, 0, 0, 0]].concat();
    let stop = seal(&stretch).unwrap_err();
    assert_eq!((stop.at, stop.refusal), (9, Refusal::StretchSize));
    let stop = seal(&stretch[..10]).unwrap_err();
    assert_eq!((stop.at, stop.refusal), (9, Refusal::StretchCut));
    let mut followed = steps(&stretch[..10]);
    assert!(followed.next().is_some_and(|step| step.is_ok()));
    assert_eq!(followed.next(), Some(Err(stop)));
    assert_eq!(followed.next(), None);
}

#[test]
fn a_step_names_the_fid_that_it_is_about() {
    let frames = [
        (version(65_535), None),
        (rversion(65_535, ""), None),
        (auth(1, 8), Some(8)),
        (rauth(1), Some(8)),
        (attach(1, 3, 8), Some(3)),
        (rattach(1), Some(3)),
        (walk(1, 3, 4, &["a"]), Some(3)),
        (rwalk(1, 1), Some(4)),
        (walk(1, 3, 5, &["a"]), Some(3)),
        (rwalk(1, 0), None),
        (lcreate(1, 4, "b"), Some(4)),
        (rlcreate(1), Some(4)),
        (xattrwalk(1, 4, 6), Some(4)),
        (rxattrwalk(1), Some(6)),
        (renameat(1, [3, 4], ["a", "b"]), Some(3)),
        (done(75, 1), None),
        (link(1, 3, 4, "c"), Some(3)),
        (rlerror(1), None),
        (clunk(1, 99), None),
        (flush(2, 1), None),
        (rflush(2), None),
        (clunk(1, 4), Some(4)),
        (rclunk(1), None),
    ];
    let stretch: Vec<u8> = frames.iter().flat_map(|(frame, _)| frame.clone()).collect();
    let told = steps(&stretch).map(|step| step.expect("a frame").fid.map(|fid| fid.0));
    let owed: Vec<_> = frames.iter().map(|(_, fid)| *fid).collect();
    assert_eq!(told.collect::<Vec<_>>(), owed);
}

#[test]
fn a_step_tells_a_tail_of_what_it_accepts_alone() {
    let tailed = frame(108, 1, &[2, 0, 0xaa, 0xbb]);
    let stretch = [&tailed[..], &tailed, &frame(109, 1, &[0xcc])].concat();
    let told = steps(&stretch).map(|step| step.map(|step| (step.at, step.tail, step.refusal)));
    let owed = [
        Ok((0, 2, None)),
        Ok((11, 0, Some(Refusal::TagOpen))),
        Ok((22, 1, None)),
    ];
    assert_eq!(told.collect::<Vec<_>>(), owed);
}

#[test]
fn a_path_is_written_at_the_front_or_not_at_all() {
    let stretch = [
        attach(1, 0, NO_FID),
        rattach(1),
        walk(1, 0, 5, &["ab", "c"]),
        rwalk(1, 2),
    ]
    .concat();
    let mut session = Session::new();
    let mut position = 0;
    while let Some(step) = session.step(&stretch, position).expect("frames") {
        position = step.next;
    }
    // A log that has grown since names the same files.
    let grown = [&stretch[..], &flush(1, 2)].concat();
    let mut room = [0x5a; 6];
    assert_eq!(session.path(Fid(5), &grown, &mut room), Ok(&b"/ab/c"[..]));
    assert_eq!(&room, b"/ab/cZ", "the rest is as it was");
    let mut room = [0x5a; 4];
    let refused = session.path(Fid(5), &stretch, &mut room);
    assert_eq!(refused, Err(Refusal::NoRoom));
    assert_eq!(&room, b"ZZZZ");
    let unknown = session.path(Fid(6), &stretch, &mut []);
    assert_eq!(unknown, Err(Refusal::FidUnknown), "23 comes before 11");
    assert_eq!(session.path(Fid(0), &stretch, &mut []), Ok(&b""[..]));
}

#[test]
fn a_refused_frame_changes_nothing() {
    let stretch = [
        attach(1, 0, NO_FID),
        clunk(1, 0),
        rclunk(1),
        walk(2, 9, 0, &[]),
        frame(108, 3, &[2]),
    ]
    .concat();
    let mut session = Session::new();
    let first = session.step(&stretch, 0).expect("a frame").expect("one");
    let (before, mut position) = (session.clone(), first.next);
    while let Some(step) = session.step(&stretch, position).expect("frames") {
        assert!(step.refusal.is_some(), "{step:?}");
        assert_eq!(session, before);
        position = step.next;
    }
}
