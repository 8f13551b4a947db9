//! `seal`: a recording and its trailer, or nothing at all. The trailers are put down by hand.

use std::fs;

use crate::running::*;

/// A Tflush and an Rflush: 16 bytes, 2 frames, the last at 9.
const FLUSHED: &[u8] = b"\x09\0\0\0\x6c\x01\0\x02\0\x07\0\0\0\x6d\x01\0";
const FLUSHED_TRAILER: &[u8] = b"\x10\0\0\0\x02\0\0\0\x09\0\0\0";

/// 9,636 bytes, 224 frames, the last at 9,629.
const SESSION_TRAILER: &[u8] = b"\xa4\x25\0\0\xe0\0\0\0\x9d\x25\0\0";

fn silent(ran: &Ran) {
    assert_eq!((ran.status, &*ran.out, &*ran.err), (Some(0), "", ""));
}

#[test]
fn the_trailer_follows_the_frames() {
    let folder = Folder::new();
    let out = folder.no_file("out");
    for (stretch, trailer) in [
        (FLUSHED, FLUSHED_TRAILER),
        (SESSION, SESSION_TRAILER),
        (b"", &[0; 12]),
        // A tail and a frame that is refused: what frames hold is not asked.
        (TAIL, b"\x0b\0\0\0\x01\0\0\0\0\0\0\0"),
        (UNKNOWN, b"\x07\0\0\0\x01\0\0\0\0\0\0\0"),
    ] {
        let file = folder.file("in", stretch);
        let owed = [stretch, trailer].concat();
        silent(&run(&["seal", &file, "-o", &out]));
        assert_eq!(fs::read(&out).expect("it is there"), owed);
        silent(&run_on(&["seal", "-", "--output", &out], stretch));
        assert_eq!(fs::read(&out).expect("it is there"), owed);
        // In its own place.
        silent(&run(&["seal", "-o", &file, "--", &file]));
        assert_eq!(fs::read(&file).expect("it is there"), owed);
        assert_eq!(folder.names(), ["in", "out"]);
    }
}

#[test]
fn a_recording_may_be_longer_than_the_lister_takes() {
    let folder = Folder::new();
    let out = folder.no_file("out");
    let stretch = SESSION.repeat(100);
    silent(&run_on(&["seal", "-", "-o", &out], &stretch));
    let sealed = fs::read(&out).expect("it is there");
    let (frames, trailer) = sealed.split_at(963_600);
    assert!(frames == stretch);
    let numbers = [963_600_u32, 22_400, 963_593].map(u32::to_le_bytes);
    assert_eq!(trailer, numbers.as_flattened());
}

#[test]
fn one_that_stops_is_named_and_nothing_is_made_or_altered() {
    let folder = Folder::new();
    let (old, new) = (folder.file("old", b"old"), folder.no_file("new"));
    let cut = "the stretch of frames is cut";
    let size = "a frame's size is less than 7";
    for (bytes, owed) in [
        (
            [SESSION, &[9, 0, 0]].concat(),
            format!("12 at byte 9636: {cut}"),
        ),
        (SESSION[..9635].into(), format!("12 at byte 9629: {cut}")),
        (
            [TAIL, &[6, 0, 0, 0]].concat(),
            format!("13 at byte 11: {size}"),
        ),
        (
            [FLUSHED, FLUSHED_TRAILER].concat(),
            format!("12 at byte 16: {cut}; it has a trailer already"),
        ),
        (
            vec![0; 12],
            format!("13 at byte 0: {size}; it has a trailer already"),
        ),
        (vec![0; 13], format!("13 at byte 0: {size}")),
    ] {
        let file = folder.file("in", &bytes);
        for out in [&old, &new, &file] {
            let ran = run(&["seal", &file, "-o", out]);
            assert_eq!((ran.status, &*ran.out), (Some(1), ""));
            let line = format!("sheafsledge: {file}: refused with {owed}\n");
            assert_eq!(ran.err, line);
            assert_eq!(fs::read(&old).expect("it is there"), b"old");
            assert_eq!(fs::read(&file).expect("it is there"), bytes);
            assert_eq!(folder.names(), ["in", "old"]);
        }
    }
}

/// The trailer of a frame of 12 bytes looks like another: then it is sealed as two frames, which it is.
#[test]
fn what_reads_to_its_end_is_sealed() {
    let folder = Folder::new();
    let frame = b"\x0c\0\0\0\x17\x01\0\x03\0abc";
    let file = folder.file("f", frame);
    silent(&run(&["seal", &file, "-o", &file]));
    let once = [&frame[..], b"\x0c\0\0\0\x01\0\0\0\0\0\0\0"].concat();
    assert_eq!(fs::read(&file).expect("it is there"), once);
    silent(&run(&["seal", &file, "-o", &file]));
    let twice = [&once[..], b"\x18\0\0\0\x02\0\0\0\x0c\0\0\0"].concat();
    assert_eq!(fs::read(&file).expect("it is there"), twice);
}

/// One line, and the folder has a file `f` alone, as before.
fn fails(folder: &Folder, words: &[&str], owed: &str) {
    let ran = run(&[&["seal"], words].concat());
    assert_eq!((ran.status, &*ran.out), (Some(2), ""), "{words:?}");
    assert_eq!(ran.err, format!("sheafsledge: {owed}\n"));
    assert_eq!(folder.names(), ["f"], "{words:?}");
    let bytes = fs::read(folder.path().join("f"));
    assert_eq!(bytes.expect("it is there"), FLUSHED);
}

#[test]
fn wrong_words_have_one_line() {
    let folder = Folder::new();
    let (file, out) = (folder.file("f", FLUSHED), folder.no_file("out"));
    let one = "name one recording, or '-' for standard input";
    for (words, owed) in [
        (&[][..], one),
        (&["-o", &out], one),
        (&[&file, &file, "-o", &out], one),
        (&[&file], "name the FILE to write, with '-o'"),
        (&[&file, "-o"], "option '-o' needs a FILE"),
        (&["--json", &file], "unknown option '--json'"),
    ] {
        let owed = format!("{owed}; try 'sheafsledge seal --help'");
        fails(&folder, words, &owed);
    }
}

#[test]
fn a_file_that_cannot_be_read_or_written_is_named() {
    let folder = Folder::new();
    let (file, out) = (folder.file("f", FLUSHED), folder.no_file("out"));
    let (missing, beyond) = (folder.no_file("no"), folder.no_file("no/out"));
    let here = folder.path().display().to_string();
    for (words, named, why) in [
        ([&missing, &out], &missing, "No such file or directory"),
        ([&here, &out], &here, "Is a directory"),
        ([&file, &here], &here, "Is a directory"),
        ([&file, &beyond], &beyond, "No such file or directory"),
    ] {
        let [from, to] = words.map(String::as_str);
        fails(&folder, &[from, "-o", to], &format!("{named}: {why}"));
    }
    let full = "/dev/full: No space left on device";
    fails(&folder, &[&file, "-o", "/dev/full"], full);
}

#[test]
fn standard_output_and_devices_are_written_as_they_are() {
    let mut command = command();
    let folder = Folder::new();
    let file = folder.file("f", FLUSHED);
    let output = command.args(["seal", &file, "-o", "-"]).output();
    let output = output.expect("it starts");
    assert_eq!(output.stdout, [FLUSHED, FLUSHED_TRAILER].concat());
    silent(&run(&["seal", &file, "-o", "/dev/null"]));
}
