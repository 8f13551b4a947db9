//! What `fields` prints. The frames are put down by hand, and so are the positions.

use std::fs::{self, File};
use std::io::{Seek, SeekFrom, Write};

use crate::running::*;

const HEADER: &str = "at type field start length value\n";

/// A Twalk of `a`, `"` and a letter of two bytes; an Rwalk of two qids; a Twalk of no names.
const WALK: &[u8] = b"\x1b\0\0\0\x6e\x03\0\x01\0\0\0\x02\0\0\0\x03\0\x01\0a\x01\0\"\x02\0\xc3\xb6";
const WALKED: &[u8] = b"\x23\0\0\0\x6f\x03\0\x02\0\
    \x80\x05\0\0\0\x07\0\0\0\0\0\0\0\x02\xff\xff\xff\xff\xff\xff\xff\xff\xff\xff\xff\xff";
const CLONE: &[u8] = b"\x11\0\0\0\x6e\x03\0\x01\0\0\0\x02\0\0\0\0\0";

/// An Rread of one byte, an Rlopen, and a Tversion whose string has a zero byte at its end.
const READ: &[u8] = b"\x0c\0\0\0\x75\x04\0\x01\0\0\0z";
const OPEN: &[u8] = b"\x18\0\0\0\x0d\x04\0\0\0\0\0\0\x09\0\0\0\0\0\0\0\0\x10\0\0";
const BROKEN: &[u8] = b"\x0f\0\0\0\x64\xff\xff\0\x20\0\0\x02\0\x61\0";

/// Where each line's bytes start, and how many they are, held to be all of the file's.
#[track_caller]
fn are_all(lines: impl Iterator<Item = (u64, u64)>, bytes: u64) {
    let mut end = 0;
    for (start, len) in lines {
        assert_eq!(start, end, "of {bytes}");
        end = start + len;
    }
    assert_eq!(end, bytes);
}

/// The number after a key.
fn number(object: &str, key: &str) -> Option<u64> {
    let (_, rest) = object.split_once(&format!("\"{key}\":"))?;
    rest.split([',', '}']).next()?.parse().ok()
}

/// Both forms of a recording have each byte once; what the lines are.
#[track_caller]
fn covered(bytes: &[u8]) -> String {
    let out = run_on(&["fields", "-"], bytes).out;
    let lines = out.strip_prefix(HEADER).expect("the header");
    let (lines, last) = lines.trim_end().rsplit_once('\n').unwrap_or(("", lines));
    assert!(
        last.starts_with("end ") || last.starts_with("stop "),
        "{last}"
    );
    let of_a_line = |line: &str| {
        let mut words = line.split(' ').skip(3).map(str::parse);
        let mut next = || words.next().expect("a word").expect("a number");
        (next(), next())
    };
    are_all(lines.lines().map(of_a_line), bytes.len() as u64);

    let objects = run_on(&["fields", "--json", "-"], bytes).out;
    let of_an_object = |object| Some((number(object, "start")?, number(object, "length")?));
    are_all(objects.lines().filter_map(of_an_object), bytes.len() as u64);
    assert_eq!(objects.lines().count(), lines.lines().count() + 1);
    lines.into()
}

#[test]
fn each_byte_of_a_session_belongs_to_one_line() {
    let lines = covered(SESSION);
    assert_eq!(lines.matches(" header ").count(), 224);
    assert!(!lines.contains(" tail ") && !lines.contains(" refused "));
}

#[test]
fn each_byte_of_any_recording_belongs_to_one_line() {
    let frames = [
        SESSION, TAIL, UNKNOWN, WALK, BROKEN, WALKED, CLONE, READ, OPEN,
    ];
    let bytes = frames.concat();
    covered(&bytes);
    for rest in [
        &[6, 0, 0, 0][..],
        &[0; 99],
        &[9],
        b"\x0b\0\0\0\x6c\x01\0\x02\0\xaa",
    ] {
        let lines = covered(&[&bytes, rest].concat());
        let rest = format!("\n{0} - rest {0} {1} 1", bytes.len(), rest.len());
        assert!(lines.contains(&rest), "{rest}");
    }
    for cut in (SESSION.len()..bytes.len()).step_by(9) {
        covered(&bytes[SESSION.len()..cut]);
    }
}

#[test]
fn every_kind_of_field_is_shown() {
    let bytes = [WALK, WALKED, CLONE, READ, OPEN, TAIL, UNKNOWN, BROKEN, &[8]].concat();
    let lines = "\
0 110 header 0 7 27 110 3
0 110 fid 7 4 1
0 110 newfid 11 4 2
0 110 wnames 15 12 \"a\" \"\\\"\" \"ö\"
27 111 header 27 7 35 111 3
27 111 wqids 34 28 128.5.7 2.4294967295.18446744073709551615
62 110 header 62 7 17 110 3
62 110 fid 69 4 1
62 110 newfid 73 4 2
62 110 wnames 77 2
79 117 header 79 7 12 117 4
79 117 data 86 5 1 byte
91 13 header 91 7 24 13 4
91 13 qid 98 13 0.0.9
91 13 iounit 111 4 4096
115 108 header 115 7 11 108 1
115 108 oldtag 122 2 2
115 108 tail 124 2 2 bytes
126 106 header 126 7 7 106 5
126 106 refused 133 0 3 the message type is unknown
133 100 header 133 7 15 100 65535
133 100 refused 140 8 6 a string has a zero byte at byte 147
148 - rest 148 1 12 the stretch of frames is cut
stop 148 12
";
    let ran = run_on(&["fields", "-"], &bytes);
    assert_eq!((ran.status, ran.out), (Some(1), format!("{HEADER}{lines}")));
    let said = "8 frames, 148 bytes, 1 tail, 2 refusals, 1 stop\n  \
                1 refused with 3: the message type is unknown\n  \
                1 refused with 6: a string has a zero byte\n  \
                1 stopped with 12: the stretch of frames is cut\n";
    assert_eq!(ran.err, said);
}

#[test]
fn objects_say_the_same() {
    let front = |at, ty, field, start, len| {
        format!("{{\"file\":\"-\",\"at\":{at},\"type\":{ty},\"field\":\"{field}\",\"start\":{start},\"length\":{len},")
    };
    let bytes = [WALK, WALKED, READ, TAIL, BROKEN, &[6, 0, 0, 0, 1]].concat();
    let ran = run_on(&["fields", "-", "--json"], &bytes);
    let owed = [
        front(0, "110", "header", 0, 7)
            + "\"value\":{\"size\":27,\"type\":110,\"tag\":3},\"name\":\"Twalk\"}",
        front(0, "110", "fid", 7, 4) + "\"value\":1,\"name\":\"Twalk\"}",
        front(0, "110", "wnames", 15, 12) + "\"value\":[\"a\",\"\\\"\",\"ö\"],\"name\":\"Twalk\"}",
        front(27, "111", "wqids", 34, 28)
            + "\"value\":[{\"type\":128,\"version\":5,\"path\":7},\
               {\"type\":2,\"version\":4294967295,\"path\":18446744073709551615}],\
               \"name\":\"Rwalk\"}",
        front(62, "117", "data", 69, 5) + "\"bytes\":1,\"name\":\"Rread\"}",
        front(74, "108", "tail", 83, 2) + "\"bytes\":2,\"name\":\"Tflush\"}",
        front(85, "100", "refused", 92, 8)
            + "\"answer\":6,\"place\":99,\"name\":\"Tversion\",\
               \"sentence\":\"a string has a zero byte\"}",
        front(100, "null", "rest", 100, 5)
            + "\"answer\":13,\"name\":null,\"sentence\":\"a frame's size is less than 7\"}",
        "{\"file\":\"-\",\"stop\":100,\"answer\":13,\
         \"sentence\":\"a frame's size is less than 7\",\"frames\":5}"
            .into(),
    ];
    assert_eq!(ran.status, Some(1));
    for object in owed {
        assert!(
            ran.out.lines().any(|line| line == object),
            "{object}\n{}",
            ran.out
        );
    }
}

/// A Twrite of so many bytes of data, and of a size.
fn write(size: u32, data: u32) -> Vec<u8> {
    let (size, data) = (size.to_le_bytes(), data.to_le_bytes());
    [&size[..], b"\x76\x01\0\x02\0\0\0\0\0\0\0\0\0\0\0", &data].concat()
}

/// A frame longer than a piece is not held, but for its fields.
#[test]
fn a_frame_may_be_longer_than_a_piece() {
    let mut bytes = [TAIL, &write(3_000_030, 3_000_000)].concat();
    bytes.resize(11 + 3_000_030, 0xee);
    bytes.extend(TAIL);
    let lines = covered(&bytes);
    let long = "11 118 header 11 7 3000030 118 1\n11 118 fid 18 4 2\n11 118 offset 22 8 0\n\
                11 118 data 30 3000004 3000000 bytes\n11 118 tail 3000034 7 7 bytes\n\
                3000041 108 header 3000041 7 11 108 1\n";
    assert!(lines.contains(long), "{lines}");
    let lines = covered(&bytes[..2_000_000]);
    assert!(lines.ends_with("11 - rest 11 1999989 12 the stretch of frames is cut"));

    // A string that breaks in a long frame, which stands after another.
    let mut frame = BROKEN.to_vec();
    frame[..4].copy_from_slice(&2_000_000_u32.to_le_bytes());
    frame.resize(2_000_000, 0xee);
    let lines = covered(&[TAIL, &frame].concat());
    assert!(lines.ends_with("11 100 refused 18 1999993 6 a string has a zero byte at byte 25"));
}

/// In a file that takes no room on the disk.
#[test]
fn the_rest_of_a_file_may_be_long() {
    let folder = Folder::new();
    let path = folder.no_file("sparse.bin");
    let mut file = File::create(&path).expect("a file");
    file.write_all(&write(3_000_000_000, 0)).expect("written");
    for (len, lines) in [
        (
            2_999_999_999,
            "0 - rest 0 2999999999 12 the stretch of frames is cut\nstop 0 12\n",
        ),
        (
            3_000_000_005,
            "0 118 header 0 7 3000000000 118 1\n0 118 fid 7 4 2\n0 118 offset 11 8 0\n\
             0 118 data 19 4 0 bytes\n0 118 tail 23 2999999977 2999999977 bytes\n\
             3000000000 - rest 3000000000 5 13 a frame's size is less than 7\nstop 3000000000 13\n",
        ),
    ] {
        file.set_len(len).expect("so long");
        let ran = run(&["fields", &path]);
        assert_eq!((ran.status, ran.out), (Some(1), format!("{HEADER}{lines}")));
    }
}

/// Positions count from where standard input stands, if that is a file.
#[test]
fn a_file_may_be_read_from_its_middle() {
    let folder = Folder::new();
    let path = folder.file("middle", &[SESSION, UNKNOWN, &[6, 0, 0, 0, 9, 9]].concat());
    let mut file = File::open(path).expect("a file");
    file.seek(SeekFrom::Start(9636)).expect("its middle");
    let output = command().args(["fields", "-"]).stdin(file).output();
    let ran = Ran::of(output.expect("it starts"));
    let lines = "0 106 header 0 7 7 106 5\n0 106 refused 7 0 3 the message type is unknown\n\
                 7 - rest 7 6 13 a frame's size is less than 7\nstop 7 13\n";
    assert_eq!((ran.status, ran.out), (Some(1), format!("{HEADER}{lines}")));
}

#[test]
fn several_files_have_headings() {
    let folder = Folder::new();
    let (none, flush) = (folder.file("none", b""), folder.file("flush", TAIL));
    let name = folder.path().display();
    let flushed =
        "0 108 header 0 7 11 108 1\n0 108 oldtag 7 2 2\n0 108 tail 9 2 2 bytes\nend 11 1\n";
    let owed = format!(
        "==> {name}/none <==\n{HEADER}end 0 0\n\n==> {name}/flush <==\n{HEADER}{flushed}\n\
         ==> standard input <==\n{HEADER}{flushed}"
    );
    let ran = run_on(&["fields", &none, &flush, "-"], TAIL);
    assert_eq!((ran.status, ran.out.as_str()), (Some(1), owed.as_str()));

    let out = folder.no_file("out");
    let ran = run_on(&["fields", &none, &flush, "-", "-o", &out], TAIL);
    assert_eq!((ran.status, ran.out.as_str()), (Some(1), ""));
    assert_eq!(fs::read_to_string(&out).expect("it is there"), owed);
    assert_eq!(run(&["fields", &none]).status, Some(0));
}

#[test]
fn what_is_wrong_is_one_line() {
    let folder = Folder::new();
    let missing = folder.no_file("none");
    let usage = |what| format!("sheafsledge: {what}; try 'sheafsledge fields --help'\n");
    for (words, err) in [
        (&[][..], usage("name a file, or '-' for standard input")),
        (&["--names", "x"], usage("unknown option '--names'")),
        (&["-", "-"], usage("standard input, '-', is named twice")),
        (
            &[&missing],
            format!("sheafsledge: {missing}: No such file or directory\n"),
        ),
    ] {
        let ran = run(&[&["fields"], words].concat());
        assert_eq!(
            (ran.status, ran.out, ran.err),
            (Some(2), String::new(), err)
        );
    }
}
