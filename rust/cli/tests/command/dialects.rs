//! `--dialect`. The recording is put down by hand, and so are the positions.

use crate::running::*;

const INSTRUMENT: &[u8] = include_bytes!("../../../../examples/instrument-session.bin");
/// The same exchange in 9P2000.u.
const RECORDER: &[u8] = include_bytes!("../../../../examples/recorder-session.bin");

/// What `list` has to print of it.
const LISTING: &str = "\
at size type tag answer tail
0 19 100 65535 0 0
19 19 101 65535 0 0
38 26 104 1 0 0
64 20 105 1 0 0
84 38 110 2 0 0
122 35 111 2 0 0
157 12 112 3 0 0
169 24 113 3 0 0
193 23 116 4 0 0
216 23 117 4 0 0
239 11 124 5 0 0
250 73 125 5 0 0
323 71 126 6 0 0
394 26 107 6 0 0
420 21 114 7 0 0
441 24 115 7 0 0
465 11 120 8 0 0
476 7 121 8 0 0
end 483 18
";

const SOUND: &str = "18 frames, 483 bytes, 0 tails, 0 refusals, 0 stops\n";

/// An Rerror whose second letter is no UTF-8, and an Rstat whose name is a zero byte.
const ERROR: &[u8] = b"\x0b\0\0\0\x6b\x03\0\x02\0n\xff";
const STAT: &[u8] =
    b"\x3b\0\0\0\x7d\x04\0\x32\0\x30\0\x01\0\x02\0\0\0\0\x03\0\0\0\x04\0\0\0\0\0\0\0\
    \xa4\x01\0\0\x05\0\0\0\x06\0\0\0\x07\0\0\0\0\0\0\0\x01\0\0\0\0\0\0\0\0";

#[test]
fn a_recording_of_9p2000_is_listed() {
    for words in [
        &["list", "--dialect", "9P2000", "-"][..],
        &["list", "--dialect=9P2000", "-"],
        &["list", "-", "--dialect", "9P2000"],
    ] {
        let ran = run_on(words, INSTRUMENT);
        assert_eq!(
            (ran.status, &ran.out[..], &ran.err[..]),
            (Some(0), LISTING, SOUND)
        );
    }
    let named = run_on(&["list", "--names", "--dialect", "9P2000", "-"], INSTRUMENT);
    assert!(named
        .out
        .contains("\n323 71 126 6 0 0 Twstat\n394 26 107 6 0 0 Rerror\n"));
    let json = run_on(&["list", "--json", "--dialect", "9P2000", "-"], INSTRUMENT);
    let object = "{\"file\":\"-\",\"at\":157,\"size\":12,\"type\":112,\"tag\":3,\"answer\":0,\
                  \"tail\":0,\"name\":\"Topen\"}\n";
    assert!(json.out.contains(object), "{}", json.out);
}

#[test]
fn a_recording_of_9p2000_u_is_listed() {
    let ran = run_on(&["list", "--dialect", "9P2000.u", "-"], RECORDER);
    let told = "\
at size type tag answer tail
0 21 100 65535 0 0
21 21 101 65535 0 0
42 30 104 1 0 0
72 20 105 1 0 0
92 38 110 2 0 0
130 35 111 2 0 0
165 12 112 3 0 0
177 24 113 3 0 0
201 23 116 4 0 0
224 23 117 4 0 0
247 11 124 5 0 0
258 87 125 5 0 0
345 85 126 6 0 0
430 30 107 6 0 0
460 28 114 7 0 0
488 24 115 7 0 0
512 11 120 8 0 0
523 7 121 8 0 0
end 530 18
";
    let summary = "18 frames, 530 bytes, 0 tails, 0 refusals, 0 stops\n";
    assert_eq!(
        (ran.status, &ran.out[..], &ran.err[..]),
        (Some(0), told, summary)
    );

    // In 9P2000 what .u has more is tail, and its stats are malformed.
    let ran = run_on(&["list", "--dialect", "9P2000", "-"], RECORDER);
    for line in [
        "42 30 104 1 0 4",
        "258 87 125 5 18 -",
        "345 85 126 6 18 -",
        "430 30 107 6 0 4",
        "460 28 114 7 0 7",
    ] {
        assert!(
            ran.out.lines().any(|told| told == line),
            "{line}: {}",
            ran.out
        );
    }
    // And 9P2000's are short here.
    let ran = run_on(&["list", "--dialect", "9P2000.u", "-"], INSTRUMENT);
    for line in [
        "38 26 104 1 1 -",
        "250 73 125 5 18 -",
        "323 71 126 6 18 -",
        "394 26 107 6 1 -",
        "420 21 114 7 1 -",
    ] {
        assert!(
            ran.out.lines().any(|told| told == line),
            "{line}: {}",
            ran.out
        );
    }

    let ran = run_on(&["pairs", "--dialect", "9P2000.u", "-"], RECORDER);
    assert_eq!(ran.status, Some(0), "{}", ran.err);
    for line in ["345 85 126 6 0 0 430", "430 30 107 6 0 0 345"] {
        assert!(
            ran.out.lines().any(|told| told == line),
            "{line}: {}",
            ran.out
        );
    }
    let ran = run_on(&["fields", "--dialect", "9P2000.u", "-"], RECORDER);
    for line in [
        "42 104 n_uname 68 4 1000",
        "258 125 stat 265 80 0 0 0.7.3 292 1000000000 1000000001 12 \"count\" \"station\" \"sci\" \"\" \"\" 1000 100 4294967295",
        "430 107 errno 456 4 13",
        "460 114 extension 481 7 \"count\"",
    ] {
        assert!(ran.out.lines().any(|told| told == line), "{line}: {}", ran.out);
    }
    let json = run_on(&["fields", "--json", "--dialect=9P2000.u", "-"], RECORDER);
    let end = "\"gid\":\"sci\",\"muid\":\"\",\"extension\":\"\",\"n_uid\":1000,\"n_gid\":100,\
               \"n_muid\":4294967295},\"name\":\"Rstat\"}\n";
    assert!(json.out.contains(end), "{}", json.out);
}

/// Without the option frames are 9P2000.L's, and that may be said too.
#[test]
fn other_frames_are_those_of_9p2000_l() {
    for words in [&["list", "-"][..], &["list", "--dialect", "9P2000.L", "-"]] {
        let ran = run_on(words, SESSION);
        assert_eq!(ran.out, sellers_listing());
        // A Tattach without n_uname is short, and 9P2000's own types are unknown.
        let ran = run_on(words, INSTRUMENT);
        assert_eq!(ran.status, Some(1));
        for line in [
            "38 26 104 1 1 -",
            "157 12 112 3 3 -",
            "394 26 107 6 3 -",
            "193 23 116 4 0 0",
        ] {
            assert!(
                ran.out.lines().any(|told| told == line),
                "{line}: {}",
                ran.out
            );
        }
    }
    let rlerror = b"\x0b\0\0\0\x07\x01\0\x02\0\0\0";
    let ran = run_on(&["list", "--names", "--dialect", "9P2000", "-"], rlerror);
    let told = "0 11 7 1 3 - ? the message type is unknown\n";
    assert!(ran.out.contains(told), "{}", ran.out);
}

#[test]
fn another_word_is_no_dialect() {
    for command in ["list", "pairs", "where", "fields"] {
        for word in ["9P2000.U", "9p2000", "", "9P2000.L "] {
            let ran = run_on(&[command, "--dialect", word, "-"], INSTRUMENT);
            assert_eq!((ran.status, &ran.out[..]), (Some(2), ""));
            assert_eq!(ran.err.lines().count(), 1, "{}", ran.err);
            let names = "it is 9P2000.L, 9P2000 or 9P2000.u;";
            assert!(
                ran.err.contains(names) && ran.err.contains(word),
                "{}",
                ran.err
            );
        }
        let twice = run(&[command, "--dialect=9P2000", "--dialect=9P2000.L", "-"]);
        assert_eq!(twice.status, Some(2), "{}", twice.err);
        let none = run(&[command, "-", "--dialect"]);
        assert!(
            none.err.contains("option '--dialect' needs a NAME"),
            "{}",
            none.err
        );
    }
    for command in ["join", "plan", "entries", "pcap"] {
        let ran = run(&[command, "--dialect", "9P2000", "-"]);
        assert_eq!(ran.status, Some(2));
        assert!(
            ran.err.contains("unknown option '--dialect'"),
            "{}",
            ran.err
        );
    }
}

#[test]
fn an_rerror_answers_there() {
    let ran = run_on(&["pairs", "--dialect", "9P2000", "-"], INSTRUMENT);
    assert_eq!(ran.status, Some(0), "{}", ran.err);
    for line in [
        "0 19 100 65535 0 0 19",
        "239 11 124 5 0 0 250",
        "323 71 126 6 0 0 394",
        "394 26 107 6 0 0 323",
        "476 7 121 8 0 0 465",
    ] {
        assert!(
            ran.out.lines().any(|told| told == line),
            "{line}: {}",
            ran.out
        );
    }
    // In 9P2000.L it is of no known type, and so is a Twstat.
    let ran = run_on(&["pairs", "-"], INSTRUMENT);
    for line in ["323 71 126 6 3 - open", "394 26 107 6 3 - stray"] {
        assert!(
            ran.out.lines().any(|told| told == line),
            "{line}: {}",
            ran.out
        );
    }
}

#[test]
fn a_stat_is_a_field() {
    let ran = run_on(&["fields", "--dialect", "9P2000", "-"], INSTRUMENT);
    assert_eq!(ran.status, Some(0), "{}", ran.err);
    for line in [
        "38 104 aname 62 2 \"\"",
        "157 112 mode 168 1 0",
        "250 125 stat 257 66 0 0 0.7.3 292 1000000000 1000000001 12 \"count\" \"station\" \"sci\" \"\"",
        "394 107 ename 401 19 \"permission denied\"",
        "420 114 perm 436 4 420",
    ] {
        assert!(ran.out.lines().any(|told| told == line), "{line}: {}", ran.out);
    }
    let mut end = 0;
    let lines = ran.out.lines().skip(1);
    for line in lines.take_while(|line| !line.starts_with("end")) {
        let words: Vec<&str> = line.split(' ').collect();
        let [start, len] = [3, 4].map(|i| words[i].parse::<usize>().expect("a number"));
        assert_eq!(start, end, "{line}");
        end = start + len;
    }
    assert_eq!(end, INSTRUMENT.len());

    let json = run_on(&["fields", "--json", "--dialect=9P2000", "-"], INSTRUMENT);
    let object = "\"field\":\"stat\",\"start\":257,\"length\":66,\"value\":{\"ty\":0,\"dev\":0,\
                  \"qid\":{\"type\":0,\"version\":7,\"path\":3},\"mode\":292,\"atime\":1000000000,\
                  \"mtime\":1000000001,\"length\":12,\"name\":\"count\",\"uid\":\"station\",\
                  \"gid\":\"sci\",\"muid\":\"\"},\"name\":\"Rstat\"}\n";
    assert!(json.out.contains(object), "{}", json.out);
}

#[test]
fn a_string_of_9p2000_breaks_at_a_byte() {
    let bytes = [ERROR, STAT].concat();
    let ran = run_on(&["where", "--names", "--dialect", "9P2000", "-"], &bytes);
    assert_eq!(ran.status, Some(1));
    // The stat's name is at 11 + 52.
    let told = "\
at answer place bytes name sentence
0 5 10 .. 00 00 6b 03 00 02 00 6e [ff] Rerror a string is not UTF-8
11 6 63 .. 00 00 00 00 00 00 01 00 [00] 00 00 00 00 00 00 Rstat a string has a zero byte
end 70 2
";
    assert_eq!(ran.out, told);
    // One count of the stat off, and no string is looked at.
    let mut bytes = bytes;
    bytes[11 + 9] += 1;
    let ran = run_on(&["list", "--dialect", "9P2000", "-"], &bytes);
    assert!(ran.out.contains("\n11 59 125 4 18 -\n"), "{}", ran.out);
}

/// Longer than a piece: never held whole, and read as any other.
#[test]
fn a_long_frame_of_9p2000_is_passed_over() {
    let mut bytes = STAT.to_vec();
    bytes[52] = b'a';
    bytes.resize(2_000_000, 0xee);
    bytes[..4].copy_from_slice(&2_000_000u32.to_le_bytes());
    bytes.extend(b"\x07\0\0\0\x7f\x05\0");
    let ran = run_on(&["list", "--dialect", "9P2000", "-"], &bytes);
    let told = "\
at size type tag answer tail
0 2000000 125 4 0 1999941
2000000 7 127 5 0 0
end 2000007 2
";
    assert_eq!(ran.out, told);
}
