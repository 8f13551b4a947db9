//! `join` of sealed recordings: their trailers are dropped, and a new one is made.

use std::fs;
use std::io::Write;
use std::process::Stdio;
use std::thread;
use std::time::Duration;

use sheafsledge::session::Recording;

use crate::running::*;

/// A Tflush with a tail: 11 bytes, one frame, at 0. A frame of no known type: 7 bytes.
const TAIL_SEALED: &[u8] = b"\x0b\0\0\0\x6c\x01\0\x02\0\xaa\xbb\x0b\0\0\0\x01\0\0\0\0\0\0\0";
const UNKNOWN_SEALED: &[u8] = b"\x07\0\0\0\x6a\x05\0\x07\0\0\0\x01\0\0\0\0\0\0\0";

/// An Rreadlink of three letters: its trailer reads as a frame.
const TWELVE: &[u8] = b"\x0c\0\0\0\x17\x01\0\x03\0abc";
const TWELVE_TRAILER: &[u8] = b"\x0c\0\0\0\x01\0\0\0\0\0\0\0";

const NOTHING_SEALED: &[u8] = &[0; 12];

fn with_trailer(stretch: &[u8], numbers: [u32; 3]) -> Vec<u8> {
    let numbers = numbers.map(u32::to_le_bytes);
    [stretch, numbers.as_flattened()].concat()
}

fn joined(folder: &Folder, words: &[&str]) -> (Ran, Option<Vec<u8>>) {
    let out = folder.no_file("out");
    let _ = fs::remove_file(&out);
    let ran = run(&[&["join", "-o", &out], words].concat());
    (ran, fs::read(&out).ok())
}

#[test]
fn a_new_trailer_tells_of_all() {
    let folder = Folder::new();
    let (a, b) = (
        folder.file("a", TAIL_SEALED),
        folder.file("b", UNKNOWN_SEALED),
    );
    let none = folder.file("none", NOTHING_SEALED);
    let both = with_trailer(&[TAIL, UNKNOWN].concat(), [18, 2, 11]);
    for words in [&[&a, &b][..], &[&none, &a, &none, &b, &none, &none]] {
        let words: Vec<&str> = words.iter().map(|word| word.as_str()).collect();
        let (ran, bytes) = joined(&folder, &words);
        let said = "2 frames, 18 bytes, 1 tail, 1 refusal, 0 stops\n  \
                    1 refused with 3: the message type is unknown\n";
        assert_eq!((ran.status, ran.err.as_str()), (Some(0), said));
        assert_eq!(bytes.as_ref(), Some(&both));
    }
    // One alone, nothing alone, one from a pipe, and one that is replaced.
    assert_eq!(joined(&folder, &[&a]).1.as_deref(), Some(TAIL_SEALED));
    assert_eq!(
        joined(&folder, &[&none, &none]).1.as_deref(),
        Some(NOTHING_SEALED)
    );
    let out = folder.no_file("out");
    assert_eq!(
        run_on(&["join", "-", &b, "-o", &out], TAIL_SEALED).status,
        Some(0)
    );
    assert_eq!(fs::read(&out).expect("it is there"), both);
    assert_eq!(run(&["join", &a, &b, "-o", &a]).status, Some(0));
    assert_eq!(fs::read(&a).expect("it is there"), both);
}

#[test]
fn sealed_and_joined_is_joined_and_sealed() {
    let folder = Folder::new();
    let (plain, sealed) = (folder.file("p", SESSION), folder.no_file("s"));
    let (out, owed) = (folder.no_file("out"), folder.no_file("owed"));
    assert_eq!(run(&["seal", &plain, "-o", &sealed]).status, Some(0));
    for times in 1..=3 {
        let ran = run(&[&["join", "-o", &out], &vec![sealed.as_str(); times][..]].concat());
        assert_eq!(ran.status, Some(0), "{ran:?}");
        let ran = run(&[&["join", "-o", &owed], &vec![plain.as_str(); times][..]].concat());
        assert_eq!(ran.status, Some(0), "{ran:?}");
        assert_eq!(run(&["seal", &owed, "-o", &owed]).status, Some(0));
        assert!(fs::read(&out).expect("it is there") == fs::read(&owed).expect("too"));
        assert_eq!(run(&["paths", &out]).status, Some(0));
    }
}

#[test]
fn those_without_a_trailer_are_named() {
    let folder = Folder::new();
    let (a, plain) = (folder.file("a", TAIL_SEALED), folder.file("plain", SESSION));
    let (empty, old) = (folder.file("empty", b""), folder.file("old", b"old"));
    let line = |name| {
        format!(
            "sheafsledge: {name}: has no trailer, and others have one; \
             'sheafsledge seal' makes one\n"
        )
    };
    let last =
        format!("sheafsledge: {old}: not written, since not all recordings have a trailer\n");
    for (words, named) in [
        (&[&a, &plain][..], &[&plain][..]),
        (&[&plain, &a], &[&plain]),
        (&[&a, &empty, &a, &plain], &[&empty, &plain]),
    ] {
        let words: Vec<&str> = words.iter().map(|word| word.as_str()).collect();
        let said: String = named.iter().map(line).collect();
        for more in [&[][..], &["--last-may-stop"]] {
            let ran = run(&[&["join", "-o", &old], more, &words].concat());
            assert_eq!((ran.status, &*ran.out), (Some(1), ""));
            assert!(ran.err.starts_with(&(said.clone() + &last)), "{ran:?}");
            assert_eq!(fs::read(&old).expect("it is there"), b"old");
        }
    }
    assert_eq!(folder.names(), ["a", "empty", "old", "plain"]);
}

/// Its front is counted as a frame by no one.
#[test]
fn a_trailer_that_looks_like_frames_is_one() {
    let folder = Folder::new();
    let eight: &[u8] = b"\x08\0\0\0\x79\x01\0\xaa";
    for (stretch, counted) in [
        (UNKNOWN, "1 frame, 7 bytes, 0 tails, 1 refusal, 0 stops\n"),
        (eight, "1 frame, 8 bytes, 1 tail, 0 refusals, 0 stops\n"),
        (TWELVE, "1 frame, 12 bytes, 0 tails, 0 refusals, 0 stops\n"),
    ] {
        let sealed = with_trailer(stretch, [stretch.len() as u32, 1, 0]);
        let file = folder.file("f", &sealed);
        let (ran, bytes) = joined(&folder, &[&file]);
        assert_eq!(ran.status, Some(0), "{ran:?}");
        assert!(ran.err.starts_with(counted), "{ran:?}");
        assert_eq!(bytes, Some(sealed));
        let len = stretch.len() as u32;
        let twice = with_trailer(&stretch.repeat(2), [2 * len, 2, len]);
        assert_eq!(joined(&folder, &[&file, &file]).1, Some(twice));
    }
    // Two frames of 12 bytes of which the second only begins as a trailer does.
    let two = folder.file("two", &TWELVE.repeat(2));
    let (ran, bytes) = joined(&folder, &[&two, &two]);
    assert!(ran
        .err
        .starts_with("4 frames, 48 bytes, 0 tails, 0 refusals, 0 stops\n"));
    assert_eq!(bytes, Some(TWELVE.repeat(4)));
}

/// Beside a sealed one, that is written if and only if the library says that it is sealed.
#[test]
fn what_is_sealed_the_library_says() {
    let folder = Folder::new();
    let none = folder.file("none", NOTHING_SEALED);
    let sealed = with_trailer(&[TAIL, TWELVE, UNKNOWN].concat(), [30, 3, 23]);
    let mut files = vec![
        sealed.clone(),
        [&sealed[..], &[0]].concat(),
        [&sealed[..], &sealed[30..]].concat(),
        [TWELVE, TWELVE_TRAILER].concat(),
        [TWELVE, TWELVE, TWELVE_TRAILER].concat(),
        [TWELVE, TWELVE_TRAILER, b"\x18\0\0\0\x02\0\0\0\x0c\0\0\0"].concat(),
        with_trailer(SESSION, [9636, 224, 9629]),
        vec![0; 11],
        vec![0; 13],
        vec![0; 24],
    ];
    for at in 30..42 {
        let mut altered = sealed.clone();
        altered[at] ^= 1 << (at % 8);
        files.extend([altered, sealed[..at].into()]);
    }
    for bytes in files {
        let file = folder.file("f", &bytes);
        let sealed = Recording::open(&bytes).is_ok();
        let (ran, out) = joined(&folder, &[&file, &none]);
        assert_eq!(out.as_ref(), sealed.then_some(&bytes), "{ran:?}");
        assert_eq!(ran.status, Some(i32::from(!sealed)));
        // As it stands after one that stops, when nothing will be written.
        let stops = folder.file("stops", &[1]);
        let (ran, _) = joined(&folder, &[&stops, &file]);
        let two = ran.err.matches(": stops at ").count() == 2;
        assert!(ran.status == Some(1) && !(sealed && two), "{ran:?}");
    }
}

#[test]
fn the_last_may_stop_or_be_sealed() {
    let folder = Folder::new();
    let (a, b) = (
        folder.file("a", TAIL_SEALED),
        folder.file("b", UNKNOWN_SEALED),
    );
    let (ran, bytes) = joined(&folder, &["--last-may-stop", &a, &b]);
    assert_eq!(ran.status, Some(0), "{ran:?}");
    let both = with_trailer(&[TAIL, UNKNOWN].concat(), [18, 2, 11]);
    assert_eq!(bytes, Some(both));
    // A trailer that is not that of the frames is the rest after a stop, as before.
    let other = with_trailer(TAIL, [11, 2, 0]);
    let file = folder.file("other", &other);
    let (ran, bytes) = joined(&folder, &["--last-may-stop", &file]);
    assert_eq!((ran.status, bytes), (Some(0), Some(other)));
}

#[test]
fn a_long_frame_may_be_sealed() {
    let size: u32 = 3 << 20;
    let mut long = vec![0x5a; size as usize];
    long[..7].copy_from_slice(&[0, 0, 0, 0, 109, 1, 0]);
    long[..4].copy_from_slice(&size.to_le_bytes());
    let sealed = with_trailer(&long, [size, 1, 0]);
    let folder = Folder::new();
    let (file, out) = (folder.file("long", &sealed), folder.no_file("out"));
    let twice = with_trailer(&long.repeat(2), [2 * size, 2, size]);
    assert!(joined(&folder, &[&file, &file]).1 == Some(twice.clone()));
    let ran = run_on(&["join", "-", &file, "-o", &out], &sealed);
    assert_eq!(ran.status, Some(0), "{ran:?}");
    assert!(fs::read(&out).expect("it is there") == twice);
    let cut = folder.file("cut", &[1]);
    let (ran, _) = joined(&folder, &[&cut, &file]);
    assert_eq!(ran.err.matches(": stops at ").count(), 1, "{ran:?}");
}

/// What comes late belongs to it too: a byte after a trailer, or the rest of one.
#[test]
fn a_slow_pipe_is_read_to_its_end() {
    let folder = Folder::new();
    let out = folder.no_file("out");
    for (late, status) in [(8, 0), (9, 1), (7, 1)] {
        let mut command = command();
        command
            .args(["join", "-", "-o", &out])
            .stdin(Stdio::piped());
        let mut child = command.stderr(Stdio::piped()).spawn().expect("it starts");
        let mut pipe = child.stdin.take().expect("a pipe");
        pipe.write_all(&[0; 4]).expect("it reads");
        thread::sleep(Duration::from_millis(200));
        pipe.write_all(&vec![0; late]).expect("it reads");
        drop(pipe);
        let ran = Ran::of(child.wait_with_output().expect("it ends"));
        assert_eq!(ran.status, Some(status), "{ran:?}");
        let stops = ran.err.contains(": stops at 0 with 13: ");
        assert_eq!(stops, status == 1, "{ran:?}");
    }
    assert_eq!(fs::read(&out).expect("it is there"), NOTHING_SEALED);
}
