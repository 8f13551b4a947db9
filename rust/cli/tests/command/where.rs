//! What `where` prints. The frames are put down by hand, and so are the places.

use std::fs;

use crate::running::*;

const HEADER: &str = "at answer place bytes\n";

/// Document 01's frames, each a Tversion; and a character that its third byte breaks.
const L: &[u8] = b"\x0f\0\0\0\x64\xff\xff\0\x20\0\0\x02\0\xc0\x80";
const M: &[u8] = b"\x0f\0\0\0\x64\xff\xff\0\x20\0\0\x02\0\x61\0";
const N: &[u8] = b"\x0f\0\0\0\x64\xff\xff\0\x20\0\0\x02\0\0\xff";
const CUT_SHORT: &[u8] = b"\x10\0\0\0\x64\xff\xff\0\x20\0\0\x03\0\xe2\x82\x41";

/// A Twalk of the names `ab`, `h\xf6he` and `c`.
const WALK: &[u8] = b"\x1e\0\0\0\x6e\x01\0\x01\0\0\0\x02\0\0\0\x03\0\
                      \x02\0ab\x04\0h\xf6he\x01\0c";

/// Rreadlinks: one whose string breaks at its first byte, and one with a tail of twenty bytes.
const LINK: &[u8] = b"\x0a\0\0\0\x17\x05\0\x01\0\xff";
const LINK_WITH_TAIL: &[u8] = b"\x20\0\0\0\x17\x05\0\x03\0a\0b\
    \xee\xee\xee\xee\xee\xee\xee\xee\xee\xee\xee\xee\xee\xee\xee\xee\xee\xee\xee\xee";

/// What one frame's line is, and that it is all.
#[track_caller]
fn owes(frame: &[u8], line: &str) {
    let ran = run_on(&["where", "-"], frame);
    let owed = format!("{HEADER}{line}\nend {} 1\n", frame.len());
    assert_eq!((ran.status, ran.out), (Some(1), owed));
}

#[test]
fn the_byte_is_marked() {
    owes(L, "0 5 13 .. ff ff 00 20 00 00 02 00 [c0] 80");
    owes(M, "0 6 14 .. ff 00 20 00 00 02 00 61 [00]");
    owes(N, "0 5 14 .. ff 00 20 00 00 02 00 00 [ff]");
    owes(CUT_SHORT, "0 5 13 .. ff ff 00 20 00 00 03 00 [e2] 82 41");
    owes(
        WALK,
        "0 5 24 .. 00 02 00 61 62 04 00 68 [f6] 68 65 01 00 63",
    );
    owes(LINK, "0 5 9 .. 00 00 00 17 05 00 01 00 [ff]");
    let line = "0 6 10 .. 00 00 17 05 00 03 00 61 [00] 62 ee ee ee ee ee ee ee ..";
    owes(LINK_WITH_TAIL, line);
}

#[test]
fn places_count_from_the_start_of_the_file() {
    let bytes = [SESSION, WALK, SESSION, UNKNOWN, TAIL, M].concat();
    let ran = run_on(&["where", "-"], &bytes);
    let out = "at answer place bytes\n\
               9636 5 9660 .. 00 02 00 61 62 04 00 68 [f6] 68 65 01 00 63\n\
               19320 6 19334 .. ff 00 20 00 00 02 00 61 [00]\n\
               end 19335 452\n";
    let err = "452 frames, 19335 bytes, 1 tail, 3 refusals, 0 stops, 2 broken strings\n  \
               1 refused with 3: the message type is unknown\n  \
               1 refused with 5: a string is not UTF-8\n  \
               1 refused with 6: a string has a zero byte\n";
    assert_eq!((ran.status, ran.out.as_str()), (Some(1), out));
    assert_eq!(ran.err, err);
}

#[test]
fn other_faults_are_counted_alone() {
    let ran = run_on(&["where", "-"], SESSION);
    let err = "224 frames, 9636 bytes, 0 tails, 0 refusals, 0 stops, 0 broken strings\n";
    assert_eq!((ran.status, ran.err.as_str()), (Some(0), err));
    assert_eq!(ran.out, format!("{HEADER}end 9636 224\n"));

    let bytes = [TAIL, UNKNOWN].concat();
    let ran = run_on(&["where", "-"], &bytes);
    let err = "2 frames, 18 bytes, 1 tail, 1 refusal, 0 stops, 0 broken strings\n  \
               1 refused with 3: the message type is unknown\n";
    assert_eq!((ran.status, ran.err.as_str()), (Some(0), err));
    assert_eq!(ran.out, format!("{HEADER}end 18 2\n"));

    let nothing = run(&["where", "-"]);
    assert_eq!(nothing.status, Some(0));
    assert_eq!(nothing.out, format!("{HEADER}end 0 0\n"));
}

/// Of a frame that is cut nothing is said, as in a listing.
#[test]
fn a_stop_is_status_1() {
    for (bytes, line) in [
        (&L[..14], "stop 0 12\n"),
        (&[TAIL, &[9]].concat(), "stop 11 12\n"),
        (&[TAIL, &[6, 0, 0, 0]].concat(), "stop 11 13\n"),
    ] {
        let ran = run_on(&["where", "-"], bytes);
        assert_eq!((ran.status, ran.out), (Some(1), format!("{HEADER}{line}")));
        assert!(
            ran.err.contains(", 1 stop, 0 broken strings\n"),
            "{}",
            ran.err
        );
    }
}

/// A Twalk of sixteen names that are as long as names can be, with a zero byte at the end of the last
/// one, and a tail.
fn long_walk() -> Vec<u8> {
    let mut frame = b"\0\0\x20\0\x6e\x01\0\x01\0\0\0\x02\0\0\0\x10\0".to_vec();
    for _ in 0..16 {
        frame.extend([0xff, 0xff]);
        frame.extend([b'a'; 65_535]);
    }
    frame[1_048_608] = 0;
    frame.resize(2_097_152, 0xee);
    frame
}

#[test]
fn a_frame_may_be_longer_than_a_piece() {
    let folder = Folder::new();
    let bytes = [L, &long_walk(), M].concat();
    let lines = "0 5 13 .. ff ff 00 20 00 00 02 00 [c0] 80\n\
                 15 6 1048623 .. 61 61 61 61 61 61 61 61 [00] ee ee ee ee ee ee ee ee ..\n\
                 2097167 6 2097181 .. ff 00 20 00 00 02 00 61 [00]\n\
                 end 2097182 3\n";
    let owed = (Some(1), format!("{HEADER}{lines}"));
    let piped = run_on(&["where", "-"], &bytes);
    assert_eq!((piped.status, piped.out), owed);
    let read = run(&["where", &folder.file("long", &bytes)]);
    assert_eq!((read.status, read.out), owed);

    let cut = run_on(&["where", "-"], &bytes[..2_097_166]);
    let line = "0 5 13 .. ff ff 00 20 00 00 02 00 [c0] 80\nstop 15 12\n";
    assert_eq!(cut.out, format!("{HEADER}{line}"));
}

/// More of them than are told of at once.
#[test]
fn many_are_printed_in_their_order() {
    let ran = run_on(&["where", "-"], &L.repeat(3000));
    let line = |i| {
        format!(
            "{} 5 {} .. ff ff 00 20 00 00 02 00 [c0] 80\n",
            15 * i,
            15 * i + 13
        )
    };
    let lines: String = (0..3000).map(line).collect();
    assert_eq!(ran.out, format!("{HEADER}{lines}end 45000 3000\n"));
    assert!(ran.err.contains(", 3000 broken strings\n"), "{}", ran.err);
}

#[test]
fn names_and_objects_say_why() {
    let bytes = [WALK, M, &[1]].concat();
    let ran = run_on(&["where", "--names", "-"], &bytes);
    let out = "at answer place bytes name sentence\n\
               0 5 24 .. 00 02 00 61 62 04 00 68 [f6] 68 65 01 00 63 Twalk a string is not UTF-8\n\
               30 6 44 .. ff 00 20 00 00 02 00 61 [00] Tversion a string has a zero byte\n\
               stop 45 12 the stretch of frames is cut\n";
    assert_eq!((ran.status, ran.out.as_str()), (Some(1), out));

    let ran = run_on(&["where", "-", "--json"], &bytes);
    let out = "{\"file\":\"-\",\"at\":0,\"answer\":5,\"place\":24,\"before\":\"00 02 00 61 62 04 00 68\",\
               \"byte\":\"f6\",\"after\":\"68 65 01 00 63\",\"name\":\"Twalk\",\
               \"sentence\":\"a string is not UTF-8\"}\n\
               {\"file\":\"-\",\"at\":30,\"answer\":6,\"place\":44,\"before\":\"ff 00 20 00 00 02 00 61\",\
               \"byte\":\"00\",\"after\":\"\",\"name\":\"Tversion\",\
               \"sentence\":\"a string has a zero byte\"}\n\
               {\"file\":\"-\",\"stop\":45,\"answer\":12,\
               \"sentence\":\"the stretch of frames is cut\",\"frames\":2}\n";
    assert_eq!((ran.status, ran.out.as_str()), (Some(1), out));
}

#[test]
fn several_files_have_headings() {
    let folder = Folder::new();
    let (sound, broken) = (folder.file("sound", SESSION), folder.file("broken", M));
    let name = folder.path().display();
    let owed = format!(
        "==> {name}/sound <==\n{HEADER}end 9636 224\n\n\
         ==> {name}/broken <==\n{HEADER}0 6 14 .. ff 00 20 00 00 02 00 61 [00]\nend 15 1\n\n\
         ==> standard input <==\n{HEADER}0 5 9 .. 00 00 00 17 05 00 01 00 [ff]\nend 10 1\n"
    );
    let ran = run_on(&["where", &sound, &broken, "-"], LINK);
    assert_eq!((ran.status, ran.out.as_str()), (Some(1), owed.as_str()));
    assert!(ran.err.contains(", 2 broken strings\n"), "{}", ran.err);

    let out = folder.no_file("out");
    let ran = run_on(&["where", &sound, &broken, "-", "-o", &out], LINK);
    assert_eq!((ran.status, ran.out.as_str()), (Some(1), ""));
    assert_eq!(fs::read_to_string(&out).expect("it is there"), owed);
}

#[test]
fn what_is_wrong_is_one_line() {
    let folder = Folder::new();
    let missing = folder.no_file("none");
    let usage = |what| format!("sheafsledge: {what}; try 'sheafsledge where --help'\n");
    for (words, err) in [
        (&[][..], usage("name a file, or '-' for standard input")),
        (&["--nmaes", "x"], usage("unknown option '--nmaes'")),
        (&["--json=x", "x"], usage("option '--json' takes no value")),
        (&["-", "-"], usage("standard input, '-', is named twice")),
        (&["x", "-o"], usage("option '-o' needs a FILE")),
        (
            &[&missing],
            format!("sheafsledge: {missing}: No such file or directory\n"),
        ),
    ] {
        let ran = run(&[&["where"], words].concat());
        assert_eq!(
            (ran.status, ran.out, ran.err),
            (Some(2), String::new(), err)
        );
    }
    // The other file is looked at all the same.
    let ran = run_on(&["where", &missing, "-"], LINK);
    assert_eq!(ran.status, Some(2));
    assert!(
        ran.out.contains("[ff]") && ran.err.contains(", 1 broken string\n"),
        "{ran:?}"
    );
}
