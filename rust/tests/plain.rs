//! Frames of 9P2000 by hand, after Plan 9's manual, section 5: each read, written, cut at every byte and
//! with a tail; an exchange; and stats whose counts are off.

mod older;
#[path = "../examples/instrument/words.rs"]
mod words;

use older::*;
use sheafsledge::plain::*;
use sheafsledge::{Data, Fid, Mark, Names, Qid, Qids, Refusal, Stop, Tag, Text, Value};

const GLENDA: Text = Text::from_static("g");
const STAT: Stat = Stat {
    ty: 1,
    dev: 2,
    qid: Qid {
        ty: 0,
        version: 3,
        path: 4,
    },
    mode: 0o644,
    atime: 5,
    mtime: 6,
    length: 7,
    name: Text::from_static("a"),
    uid: Text::from_static("b"),
    gid: Text::from_static(""),
    muid: Text::from_static("cd"),
};

/// An Rstat with this count, this size, the numbers and the bytes after them.
fn rstat(count: u16, size: u16, rest: &[u8]) -> Vec<u8> {
    let stat = [&count.to_le_bytes(), &size.to_le_bytes(), NUMBERS, rest].concat();
    framed(125, 4, &stat)
}

/// Each request of the dialect, and its bytes.
fn requests() -> Vec<(u16, Tmessage<'static>, Vec<u8>)> {
    let (fid, afid) = (Fid(1), Fid::NONE);
    let (uname, aname) = (GLENDA, Text::default());
    let name = Text::from_static("n");
    let auth = Tauth {
        afid: Fid(9),
        uname,
        aname: Text::from_static("t"),
    };
    let attach = Tattach {
        fid,
        afid,
        uname,
        aname,
    };
    let create = Tcreate {
        fid,
        name,
        perm: 0o644,
        mode: 1,
    };
    let own = vec![
        (
            6,
            Tmessage::Auth(auth),
            b"\x11\0\0\0\x66\x06\0\x09\0\0\0\x01\0g\x01\0t".to_vec(),
        ),
        (
            1,
            Tmessage::Attach(attach),
            b"\x14\0\0\0\x68\x01\0\x01\0\0\0\xff\xff\xff\xff\x01\0g\0\0".to_vec(),
        ),
        (
            3,
            Tmessage::Create(create),
            b"\x13\0\0\0\x72\x03\0\x01\0\0\0\x01\0n\xa4\x01\0\0\x01".to_vec(),
        ),
        (
            5,
            Tmessage::Wstat(Twstat { fid, stat: STAT }),
            [
                b"\x42\0\0\0\x7e\x05\0\x01\0\0\0\x35\0\x33\0",
                NUMBERS,
                STRINGS,
            ]
            .concat(),
        ),
    ];
    [shared_requests!(), own].concat()
}

/// The same of each reply.
fn replies() -> Vec<(u16, Rmessage<'static>, Vec<u8>)> {
    let ename = Text::from_static("no");
    let own = vec![
        (
            3,
            Rmessage::Error(Rerror { ename }),
            b"\x0b\0\0\0\x6b\x03\0\x02\0no".to_vec(),
        ),
        (
            4,
            Rmessage::Stat(Rstat { stat: STAT }),
            [b"\x3e\0\0\0\x7d\x04\0\x35\0\x33\0", NUMBERS, STRINGS].concat(),
        ),
    ];
    [shared_replies!(), own].concat()
}

each_frame_is_held!();

/// Each type is known in the dialects that have it, and in no other.
#[test]
fn the_dialects_know_their_own_types() {
    let shared = [
        100, 101, 102, 103, 104, 105, 108, 109, 110, 111, 116, 117, 118, 119, 120,
    ];
    let shared = [&shared[..], &[121, 122, 123]].concat();
    let own = [107, 112, 113, 114, 115, 124, 125, 126, 127];
    let ls = [
        7, 8, 9, 12, 13, 14, 15, 16, 17, 18, 19, 20, 21, 22, 23, 24, 25, 26, 27, 30, 31, 32, 33,
        40, 41, 50, 51, 52, 53, 54, 55, 70, 71, 72, 73, 74, 75, 76, 77,
    ];
    for ty in 0..=255 {
        let bytes = framed(ty, 5, &[0; 200]);
        let plain = match ty % 2 {
            0 => Tframe::decode(&bytes).unwrap().frame.msg.err(),
            _ => Rframe::decode(&bytes).err(),
        };
        let l = match ty % 2 {
            0 => sheafsledge::Tframe::decode(&bytes).unwrap().frame.msg.err(),
            _ => sheafsledge::Rframe::decode(&bytes).err(),
        };
        let is_unknown = |refusal| refusal == Some(Refusal::UnknownType);
        let (in_plain, in_l) = (
            shared.contains(&ty) || own.contains(&ty),
            shared.contains(&ty) || ls.contains(&ty),
        );
        assert_eq!(is_unknown(plain), !in_plain, "{ty}");
        assert_eq!(is_unknown(l), !in_l, "{ty}");
        assert_eq!(message_name(ty).is_some(), in_plain, "{ty}");
        assert_eq!(sheafsledge::message_name(ty).is_some(), in_l, "{ty}");
    }
}

/// The four bytes of 9P2000.L's n_uname are a tail here, and their absence is short there.
#[test]
fn a_tattach_ends_before_n_uname() {
    let plain = b"\x14\0\0\0\x68\x01\0\x01\0\0\0\xff\xff\xff\xff\x01\0g\0\0";
    let l = b"\x18\0\0\0\x68\x01\0\x01\0\0\0\xff\xff\xff\xff\x01\0g\0\0\xe8\x03\0\0";
    let attach = Tattach {
        fid: Fid(1),
        afid: Fid::NONE,
        uname: GLENDA,
        aname: Text::default(),
    };
    for bytes in [&plain[..], l] {
        let listed = stretch(bytes).next().unwrap().unwrap();
        assert_eq!(listed.body, Body::Request(Ok(Tmessage::Attach(attach))));
        assert_eq!(listed.tail, bytes.len() - 20);
    }
    let short = sheafsledge::Tframe::decode(plain).unwrap().frame.msg;
    assert_eq!(short, Err(Refusal::Short));
    assert!(sheafsledge::Tframe::decode(l).unwrap().frame.msg.is_ok());
}

/// The very records of 9P2000.L: what is handed from one dialect to the other needs no copy.
#[test]
fn shared_records_are_the_same() {
    let walk: sheafsledge::Twalk = Twalk {
        fid: Fid(1),
        newfid: Fid(2),
        wnames: Names::default(),
    };
    let mut out = [[0; 32]; 2];
    let tag = Tag(3);
    let msg = Ok(Tmessage::Walk(walk));
    let plain = Tframe { tag, msg }.encode(&mut out[0]).unwrap();
    let msg = Ok(sheafsledge::Tmessage::Walk(walk));
    let l = sheafsledge::Tframe { tag, msg }
        .encode(&mut out[1])
        .unwrap();
    assert_eq!(out[0][..plain], out[1][..l]);
}

an_exchange_is_held!(
    Rerror {
        ename: Text::from_static("file not found")
    },
    b"\x17\0\0\0\x6b\x0c\0\x0e\0file not found"
);

/// 107 is an error's type here, and 7 in 9P2000.L alone; a request of another dialect has no answer.
#[test]
fn pairs_are_this_dialects() {
    let mark = |ty| Mark { ty, tag: Tag(1) };
    for (request, reply, plain, l) in [
        (100, 101, true, true),
        (112, 113, true, false),
        (112, 107, true, false),
        (100, 107, true, false),
        (100, 7, false, true),
        (12, 13, false, true),
        (12, 107, false, false),
        (106, 107, false, false),
        (113, 107, false, false),
        (6, 7, false, false),
    ] {
        assert_eq!(
            answers(mark(request), mark(reply)),
            plain,
            "{request} {reply}"
        );
        let there = sheafsledge::answers(mark(request), mark(reply));
        assert_eq!(there, l, "{request} {reply}");
    }
    let other = Mark {
        ty: 107,
        tag: Tag(2),
    };
    assert!(!answers(mark(112), other));
}

#[track_caller]
fn refused(bytes: &[u8], refusal: Refusal) {
    assert_eq!(Rframe::decode(bytes), Err(refusal));
    // In a stretch the place counts on from its first byte.
    let behind = [b"\x07\0\0\0\x7f\x05\0", bytes].concat();
    let listed = stretch(&behind).last().unwrap().unwrap();
    let refusal = match refusal {
        Refusal::NotUtf8 { at } => Refusal::NotUtf8 { at: at + 7 },
        Refusal::ZeroByte { at } => Refusal::ZeroByte { at: at + 7 },
        other => other,
    };
    assert_eq!(listed.body, Body::Reply(Err(refusal)));
}

#[test]
fn a_stats_counts_have_to_agree() {
    let malformed = Refusal::StatMalformed;
    // Its count is 0, 1 and 2: no size, half of one, and one of no fields.
    refused(&framed(125, 4, &[0, 0]), malformed);
    refused(&framed(125, 4, &[1, 0, 0]), malformed);
    refused(&framed(125, 4, &[2, 0, 0, 0]), malformed);
    // It is 48, and the last string's count is cut; of 49 all strings are empty.
    refused(&rstat(48, 46, &[0; 7]), malformed);
    let empty = rstat(49, 47, &[0; 8]);
    let read = Rframe::decode(&empty).unwrap();
    let none = Text::default();
    let stat = Stat {
        name: none,
        uid: none,
        gid: none,
        muid: none,
        ..STAT
    };
    assert_eq!(read.frame.msg, Rmessage::Stat(Rstat { stat }));
    assert_eq!(read.used, 58);

    // The count and the size, each off by one; so many bytes are there where the frame has a tail.
    assert!(Rframe::decode(&rstat(53, 51, STRINGS)).is_ok());
    refused(&rstat(52, 51, STRINGS), malformed);
    refused(&rstat(54, 51, STRINGS), Refusal::Short);
    refused(&rstat(53, 50, STRINGS), malformed);
    refused(&rstat(53, 52, STRINGS), malformed);
    let tailed = [STRINGS, b"\0"].concat();
    refused(&rstat(54, 51, &tailed), malformed);
    refused(&rstat(54, 52, &tailed), malformed);
    refused(&rstat(52, 50, STRINGS), malformed);

    // The counts of its strings, each off by one: what follows is followed as it then stands.
    for (place, less, more) in [(0, 0, 2), (3, 0, 2), (6, 255, 1), (8, 1, 3)] {
        for count in [less, more] {
            let mut strings = STRINGS.to_vec();
            strings[place] = count;
            refused(&rstat(53, 51, &strings), malformed);
        }
    }
    // The last string ends one byte after the stat, in a frame that holds the byte.
    refused(&rstat(53, 51, b"\x01\0a\x01\0b\0\0\x03\0cde"), malformed);
    // One byte before.
    refused(&rstat(53, 51, b"\x01\0a\x01\0b\0\0\x01\0cd"), malformed);
}

/// Ends before text, and text with its place.
#[test]
fn a_stats_strings_are_text() {
    // The name's first letter is byte 52 of the frame, the uid's 55, the muid's 60.
    refused(
        &rstat(53, 51, b"\x01\0\xff\x01\0b\0\0\x02\0cd"),
        Refusal::NotUtf8 { at: 52 },
    );
    refused(
        &rstat(53, 51, b"\x01\0a\x01\0\0\0\0\x02\0cd"),
        Refusal::ZeroByte { at: 55 },
    );
    refused(
        &rstat(53, 51, b"\x01\0a\x01\0b\0\0\x02\0c\xc3"),
        Refusal::NotUtf8 { at: 61 },
    );
    refused(
        &rstat(53, 51, b"\x01\0a\x01\0b\0\0\x02\0\0\xff"),
        Refusal::NotUtf8 { at: 61 },
    );
    refused(
        &rstat(53, 51, b"\x01\0\0\x01\0\xff\0\0\x02\0cd"),
        Refusal::ZeroByte { at: 52 },
    );
    // The name is no text, and the last string ends early.
    refused(
        &rstat(53, 51, b"\x01\0\xff\x01\0b\0\0\x01\0cd"),
        Refusal::StatMalformed,
    );
}

#[test]
fn a_stat_is_written_up_to_its_count() {
    let long = "n".repeat(65_535);
    let wstat = |len| {
        let name = Text::new(&long[..len]).unwrap();
        let none = Text::default();
        let stat = Stat {
            name,
            uid: none,
            gid: none,
            muid: none,
            ..STAT
        };
        Twstat { fid: Fid(1), stat }
    };
    let write = |len, out: &mut [u8]| {
        let msg = Ok(Tmessage::Wstat(wstat(len)));
        Tframe { tag: Tag(5), msg }.encode(out)
    };
    // The count is 49 and the name's length: 65,535 fits, and one more does not.
    let mut out = vec![0xaa; 70_000];
    assert_eq!(write(65_486, &mut out), Ok(65_548));
    assert_eq!(
        out[..15],
        *b"\x0c\0\x01\0\x7e\x05\0\x01\0\0\0\xff\xff\xfd\xff"
    );
    let (_, msg, used) = read_t(&out).unwrap();
    assert_eq!((msg, used), (Tmessage::Wstat(wstat(65_486)), 65_548));
    for len in [65_487, 65_535] {
        let mut out = vec![0xaa; 70_000];
        assert_eq!(write(len, &mut out), Err(Refusal::StatMalformed));
        assert!(out.iter().all(|byte| *byte == 0xaa));
        assert_eq!(write(len, &mut []), Err(Refusal::StatMalformed));
    }
    // Over several strings too, which are put together.
    let [name, uid] = [&long[..40_000], &long[..25_487]].map(|text| Text::new(text).unwrap());
    let (gid, muid) = (Text::default(), Text::default());
    let stat = Stat {
        name,
        uid,
        gid,
        muid,
        ..STAT
    };
    let msg = Rmessage::Stat(Rstat { stat });
    let reply = Rframe { tag: Tag(4), msg };
    assert_eq!(reply.encode(&mut out), Err(Refusal::StatMalformed));
    assert_eq!(reply.byte_size(), Err(Refusal::StatMalformed));
    let uid = Text::new(&long[..25_486]).unwrap();
    let stat = Stat { uid, ..stat };
    let msg = Rmessage::Stat(Rstat { stat });
    let reply = Rframe { tag: Tag(4), msg };
    assert_eq!(reply.encode(&mut out), Ok(65_544));
    assert_eq!(read_r(&out).unwrap().1, msg);
}

/// Lent and gathered names and qids, as in 9P2000.L.
#[test]
fn walks_are_written_from_either() {
    let (fid, newfid, tag) = (Fid(1), Fid(2), Tag(3));
    let by_hand = b"\x18\0\0\0\x6e\x03\0\x01\0\0\0\x02\0\0\0\x02\0\x01\0a\x02\0bc";
    let mut room = [0; 16];
    let gathered = Names::gather(&["a", "bc"], &mut room).unwrap();
    for wnames in [gathered, Names::of(&["a", "bc"]).unwrap()] {
        let mut out = [0; 32];
        let msg = Ok(Tmessage::Walk(Twalk {
            fid,
            newfid,
            wnames,
        }));
        assert_eq!(Tframe { tag, msg }.encode(&mut out), Ok(24));
        assert_eq!(out[..24], *by_hand);
    }
    let many = [QID; 17];
    for (qids, told) in [
        (&many[..16], Ok(217)),
        (&many[..], Err(Refusal::TooManyElements)),
    ] {
        let wqids = Qids::from(qids);
        let msg = Rmessage::Walk(Rwalk { wqids });
        assert_eq!(Rframe { tag, msg }.encode(&mut [0; 256]), told);
    }
}

/// A frame that holds a refusal is not written.
#[test]
fn a_refusal_is_not_written() {
    let frame = Tframe::decode(b"\x07\0\0\0\x0c\x05\0").unwrap().frame;
    assert_eq!((frame.tag, frame.msg), (Tag(5), Err(Refusal::UnknownType)));
    assert_eq!(frame.encode(&mut [0; 64]), Err(Refusal::HoldsRefusal));
    assert_eq!(frame.byte_size(), Err(Refusal::HoldsRefusal));
}

#[test]
fn fields_stand_where_they_are_said_to() {
    let twstat = [
        b"\x42\0\0\0\x7e\x05\0\x01\0\0\0\x35\0\x33\0",
        NUMBERS,
        STRINGS,
    ]
    .concat();
    let bytes = [&b"\x07\0\0\0\x7f\x05\0"[..], &twstat].concat();
    let frame = stretch(&bytes).last().unwrap().unwrap();
    let fields: Vec<_> = frame.fields().collect();
    let [fid, stat] = &fields[..] else {
        panic!("{fields:?}");
    };
    assert_eq!(
        (fid.name, fid.range.clone(), fid.value),
        ("fid", 14..18, Value::Number(1))
    );
    assert_eq!(
        (stat.name, stat.range.clone(), stat.value),
        ("stat", 18..73, Value::Stat(STAT))
    );
    assert_eq!((stat.shown(), frame.next), (22..73, 73));
    let texts: Vec<_> = stat.texts().collect();
    let [name, uid, gid, muid] = ["a", "b", "", "cd"].map(Text::from_static);
    let owed = [(63..64, name), (66..67, uid), (69..69, gid), (71..73, muid)];
    assert_eq!(texts, owed);
    for (range, text) in texts {
        assert_eq!(bytes[range], *text.as_bytes());
    }
    let parts: Vec<_> = stat.parts().map(|part| (part.name, part.range)).collect();
    let owed = [
        ("ty", 22..24),
        ("dev", 24..28),
        ("qid", 28..41),
        ("mode", 41..45),
        ("atime", 45..49),
        ("mtime", 49..53),
        ("length", 53..61),
        ("name", 61..64),
        ("uid", 64..67),
        ("gid", 67..69),
        ("muid", 69..73),
    ];
    assert_eq!(parts, owed);
    assert_eq!(fid.parts().count(), 0);
}

/// What the example says of its recording, by hand.
#[test]
fn the_example_says_each_frame() {
    let bytes = include_bytes!("../../examples/instrument-session.bin");
    let told = r#"0 65535 asks for "9P2000", frames of 8192 bytes
19 65535 told "9P2000", frames of 8192 bytes
38 1 asks 0 to be the root "" of "station"
64 1 told the root is directory 1
84 2 asks 1 to be ["spectrometer", "count"] from 0 on
122 2 told found 2, the last is file 3
157 3 asks to open 1 with mode 0
169 3 told file 3 is open
193 4 asks for 64 bytes of 1 from 0 on
216 4 told "1024 counts\n"
239 5 asks what 1 is
250 5 told "count", 12 bytes, mode 444, of "station"
323 6 asks 1 to be "count.old"
394 6 told it has failed: "permission denied"
420 7 asks to make "log" in 0 with 644
441 7 told file 4 is made
465 8 asks to give 1 up
476 8 told it is given up
"#;
    assert_eq!(words::session(bytes), (told.to_string(), None));

    let (text, wrong) = words::session(&bytes[..25]);
    assert_eq!(text, told[..told.find("19 ").unwrap()]);
    let cut = "at byte 19: the stretch of frames is cut (refusal 12)";
    assert_eq!(wrong.as_deref(), Some(cut));
    let (text, wrong) = words::session(b"\x0b\0\0\0\x07\x01\0\x02\0\0\0");
    let unknown = "0 1 told no message: the message type is unknown (refusal 3)\n";
    assert_eq!(
        (&text[..], wrong.as_deref()),
        (unknown, Some("one frame is refused"))
    );
}
