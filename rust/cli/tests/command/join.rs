//! `join`: recordings one after the other, or nothing at all.

use std::fs;

use crate::running::*;

const CUT: &[u8] = b"\x09\0\0\0\x6c\x01\0\x02";
const NO_SIZE: &[u8] = b"\x06\0\0\0\x6c\x01\0";

/// The seller's listing of the session so many times over, by the law: each time later by the
/// session's length, and one last line.
fn listing_of(times: usize) -> String {
    let one = sellers_listing();
    let (frames, _) = one.rsplit_once("end ").expect("a last line");
    let (header, frames) = frames.split_once('\n').expect("a header");
    let mut all = format!("{header}\n");
    for k in 0..times {
        for line in frames.lines() {
            let (at, rest) = line.split_once(' ').expect("a position");
            let at: usize = at.parse().expect("a number");
            all += &format!("{} {rest}\n", at + k * SESSION.len());
        }
    }
    all + &format!("end {} {}\n", times * SESSION.len(), times * 224)
}

fn joined(folder: &Folder, words: &[&str]) -> (Ran, Option<Vec<u8>>) {
    let out = folder.no_file("out");
    let _ = fs::remove_file(&out);
    let ran = run(&[&["join", "-o", &out], words].concat());
    (ran, fs::read(&out).ok())
}

#[test]
fn two_sessions_are_listed_as_the_law_says() {
    let folder = Folder::new();
    let file = folder.file("session", SESSION);
    for times in 1..=3 {
        let (ran, bytes) = joined(&folder, &vec![file.as_str(); times]);
        let (frames, len) = (times * 224, times * SESSION.len());
        let said = format!("{frames} frames, {len} bytes, 0 tails, 0 refusals, 0 stops\n");
        assert_eq!((ran.status, ran.out.as_str(), ran.err), (Some(0), "", said));
        assert_eq!(bytes.expect("it is there"), SESSION.repeat(times));
        let listed = run(&["list", &folder.no_file("out")]);
        assert_eq!((listed.status, listed.out), (Some(0), listing_of(times)));
    }
    assert_eq!(folder.names(), ["out", "session"]);
}

#[test]
fn brackets_and_empty_recordings_change_nothing() {
    let folder = Folder::new();
    let (a, b) = (folder.file("a", TAIL), folder.file("b", UNKNOWN));
    let (c, empty) = (folder.file("c", SESSION), folder.file("empty", b""));
    let all = [TAIL, UNKNOWN, SESSION].concat();
    assert_eq!(joined(&folder, &[&a, &b, &c]).1.as_ref(), Some(&all));
    let ab = folder.file("ab", &joined(&folder, &[&a, &b]).1.expect("it is there"));
    assert_eq!(joined(&folder, &[&ab, &c]).1.as_ref(), Some(&all));
    let bc = folder.file("bc", &joined(&folder, &[&b, &c]).1.expect("it is there"));
    assert_eq!(joined(&folder, &[&a, &bc]).1.as_ref(), Some(&all));
    let with_empty = [&empty, &a, &empty, &empty, &bc, &empty].map(String::as_str);
    assert_eq!(joined(&folder, &with_empty).1.as_ref(), Some(&all));
    assert_eq!(joined(&folder, &[&empty]).1, Some(Vec::new()));
}

#[test]
fn refused_bodies_and_tails_are_joined_and_counted() {
    let folder = Folder::new();
    let (a, b) = (folder.file("a", UNKNOWN), folder.file("b", TAIL));
    let (ran, bytes) = joined(&folder, &[&a, &b]);
    let said = "2 frames, 18 bytes, 1 tail, 1 refusal, 0 stops\n  \
                1 refused with 3: the message type is unknown\n";
    assert_eq!((ran.status, ran.err.as_str()), (Some(0), said));
    assert_eq!(bytes, Some([UNKNOWN, TAIL].concat()));
}

#[test]
fn each_recording_that_stops_is_named_and_nothing_is_written() {
    let folder = Folder::new();
    let whole = folder.file("whole", SESSION);
    let cut = folder.file("cut", &[SESSION, CUT].concat());
    let size = folder.file("size", &[TAIL, NO_SIZE].concat());
    let out = folder.file("old", b"old");
    let at_cut =
        format!("sheafsledge: {cut}: stops at 9636 with 12: the stretch of frames is cut\n");
    let at_size =
        format!("sheafsledge: {size}: stops at 11 with 13: a frame's size is less than 7\n");
    for (words, lines) in [
        (&[&cut, &whole][..], &[&at_cut][..]),
        (&[&whole, &cut], &[&at_cut]),
        (&[&size, &whole, &cut], &[&at_size, &at_cut]),
    ] {
        let words: Vec<&str> = words.iter().map(|word| word.as_str()).collect();
        let ran = run(&[&["join", "-o", &out][..], &words].concat());
        let said: String = lines.iter().map(|line| line.as_str()).collect();
        let said = said
            + &format!(
                "sheafsledge: {out}: not written, since a recording does not read to its end\n"
            );
        assert_eq!(ran.status, Some(1), "{ran:?}");
        assert!(ran.err.starts_with(&said), "{ran:?}\n{said}");
        assert_eq!(fs::read(&out).expect("it is there"), b"old");
        assert_eq!(folder.names(), ["cut", "old", "size", "whole"]);
    }
}

#[test]
fn the_last_may_stop_if_it_is_let() {
    let folder = Folder::new();
    let whole = folder.file("whole", SESSION);
    for rest in [CUT, NO_SIZE, &[NO_SIZE, SESSION].concat()] {
        let last = folder.file("last", &[TAIL, rest].concat());
        let (ran, bytes) = joined(&folder, &["--last-may-stop", &whole, &last]);
        assert_eq!(ran.status, Some(0), "{ran:?}");
        assert!(ran.err.contains(" 1 stop\n"), "{ran:?}");
        assert_eq!(bytes, Some([SESSION, TAIL, rest].concat()));
        let listed = run(&["list", &folder.no_file("out")]).out;
        assert!(listed.contains("\nstop 9647 1"), "{listed}");
        // Not another than the last.
        let (ran, bytes) = joined(&folder, &["--last-may-stop", &last, &whole]);
        assert_eq!((ran.status, bytes), (Some(1), None));
    }
}

#[test]
fn a_frame_longer_than_a_piece_is_copied_too() {
    let size: u32 = 3 << 20;
    let mut long = vec![0x5a; size as usize];
    long[..7].copy_from_slice(&[0, 0, 0, 0, 109, 1, 0]);
    long[..4].copy_from_slice(&size.to_le_bytes());
    let folder = Folder::new();
    let (file, all) = (folder.file("long", &long), [&long, SESSION].concat());
    let session = folder.file("session", SESSION);
    let (ran, bytes) = joined(&folder, &[&file, &session]);
    assert_eq!(ran.status, Some(0), "{ran:?}");
    assert!(bytes.as_ref() == Some(&all));
    // From a pipe, which can't be sought in; and its last byte missing.
    let out = folder.no_file("out");
    let ran = run_on(&["join", "-", &session, "-o", &out], &long);
    assert_eq!(ran.status, Some(0), "{ran:?}");
    assert!(fs::read(&out).expect("it is there") == all);
    let ran = run_on(
        &["join", "-", &session, "-o", &out],
        &long[..long.len() - 1],
    );
    let line = "sheafsledge: standard input: stops at 0 with 12: the stretch of frames is cut\n";
    assert!(
        ran.status == Some(1) && ran.err.starts_with(line),
        "{ran:?}"
    );
    assert!(fs::read(&out).expect("it is there") == all);
}

#[test]
fn a_recording_may_be_replaced_by_what_it_is_joined_to() {
    let folder = Folder::new();
    let (a, b) = (folder.file("a", TAIL), folder.file("b", UNKNOWN));
    assert_eq!(run(&["join", &a, &b, &a, "-o", &a]).status, Some(0));
    let all = [TAIL, UNKNOWN, TAIL].concat();
    assert_eq!(fs::read(&a).expect("it is there"), all);
    assert_eq!(folder.names(), ["a", "b"]);
}

#[test]
fn wrong_words_and_files_have_one_line() {
    let folder = Folder::new();
    let (a, out) = (folder.file("a", TAIL), folder.no_file("out"));
    let missing = folder.no_file("missing");
    let usage = "; try 'sheafsledge join --help'";
    let whole = "not a file, so it cannot appear whole or not at all";
    let unread = format!("{out}: not written, since a recording cannot be read");
    let here = folder.path().display().to_string();
    for (words, lines) in [
        (
            vec!["join", &a],
            vec![format!("name the FILE to write, with '-o'{usage}")],
        ),
        (
            vec!["join", "-o", &out],
            vec![format!("name a file, or '-' for standard input{usage}")],
        ),
        (
            vec!["join", "-o", &out, "-", "-"],
            vec![format!("standard input, '-', is named twice{usage}")],
        ),
        (vec!["join", "-o", "-", &a], vec![format!("-: {whole}")]),
        (
            vec!["join", "-o", "/dev/null", &a],
            vec![format!("/dev/null: {whole}")],
        ),
        (
            vec!["join", "-o", &here, &a],
            vec![format!("{here}: Is a directory")],
        ),
        (
            vec!["join", "-o", &out, &a, &missing],
            vec![
                format!("{missing}: No such file or directory"),
                unread.clone(),
            ],
        ),
        (
            vec!["join", "-o", &out, &here, &a],
            vec![format!("{here}: Is a directory"), unread],
        ),
    ] {
        let ran = run(&words);
        let said = lines.iter().map(|line| format!("sheafsledge: {line}\n"));
        let said: String = said.collect();
        assert_eq!(ran.status, Some(2), "{ran:?}");
        assert!(ran.out.is_empty() && ran.err.starts_with(&said), "{ran:?}");
        assert_eq!(folder.names(), ["a"], "{words:?}");
    }
}
