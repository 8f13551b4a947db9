//! Frames of 9P2000.u by hand, from its layouts: each read, written, cut at every byte and with a tail; the
//! exchange of 9P2000 in it; stats whose counts are off; and what each of the two editions makes of the
//! other's frames.

mod older;
#[path = "../examples/recorder/words.rs"]
mod words;

use older::*;
use sheafsledge::unix::*;
use sheafsledge::{plain, Data, Fid, Mark, Names, Qid, Qids, Refusal, Stop, Tag, Text, Value};

const GLENDA: Text = Text::from_static("g");
const STAT: Stat = Stat {
    ty: 1,
    dev: 2,
    qid: Qid {
        ty: 0,
        version: 3,
        path: 4,
    },
    mode: 0o644,
    atime: 5,
    mtime: 6,
    length: 7,
    name: Text::from_static("a"),
    uid: Text::from_static("b"),
    gid: Text::from_static(""),
    muid: Text::from_static("cd"),
    extension: Text::from_static("e"),
    n_uid: 8,
    n_gid: 9,
    n_muid: 10,
};
/// What `STAT` has after the strings of 9P2000's.
const MORE: &[u8] = b"\x01\0e\x08\0\0\0\x09\0\0\0\x0a\0\0\0";

/// The four messages of 9P2000 that are a prefix of 9P2000.u's, and what follows there.
const TAUTH: &[u8] = b"\x11\0\0\0\x66\x06\0\x09\0\0\0\x01\0g\x01\0t";
const TATTACH: &[u8] = b"\x14\0\0\0\x68\x01\0\x01\0\0\0\xff\xff\xff\xff\x01\0g\0\0";
const TCREATE: &[u8] = b"\x13\0\0\0\x72\x03\0\x01\0\0\0\x01\0n\xa4\x01\0\0\x01";
const RERROR: &[u8] = b"\x0b\0\0\0\x6b\x03\0\x02\0no";

/// A frame with more bytes after it, within its size.
fn longer(frame: &[u8], more: &[u8]) -> Vec<u8> {
    let mut bytes = [frame, more].concat();
    let size = bytes.len() as u32;
    bytes[..4].copy_from_slice(&size.to_le_bytes());
    bytes
}

/// An Rstat with this count, this size, the numbers and the bytes after them.
fn rstat(count: u16, size: u16, rest: &[u8]) -> Vec<u8> {
    let stat = [&count.to_le_bytes(), &size.to_le_bytes(), NUMBERS, rest].concat();
    framed(125, 4, &stat)
}

/// Each request of the dialect, and its bytes.
fn requests() -> Vec<(u16, Tmessage<'static>, Vec<u8>)> {
    let (fid, afid, n_uname) = (Fid(1), Fid::NONE, 1000);
    let (uname, aname) = (GLENDA, Text::default());
    let auth = Tauth {
        afid: Fid(9),
        uname,
        aname: Text::from_static("t"),
        n_uname,
    };
    let attach = Tattach {
        fid,
        afid,
        uname,
        aname,
        n_uname,
    };
    let create = Tcreate {
        fid,
        name: Text::from_static("n"),
        perm: 0o644,
        mode: 1,
        extension: Text::from_static("xy"),
    };
    let stat = [&b"\x44\0\x42\0"[..], NUMBERS, STRINGS, MORE].concat();
    let own = vec![
        (
            6,
            Tmessage::Auth(auth),
            b"\x15\0\0\0\x66\x06\0\x09\0\0\0\x01\0g\x01\0t\xe8\x03\0\0".to_vec(),
        ),
        (
            1,
            Tmessage::Attach(attach),
            b"\x18\0\0\0\x68\x01\0\x01\0\0\0\xff\xff\xff\xff\x01\0g\0\0\xe8\x03\0\0".to_vec(),
        ),
        (
            3,
            Tmessage::Create(create),
            b"\x17\0\0\0\x72\x03\0\x01\0\0\0\x01\0n\xa4\x01\0\0\x01\x02\0xy".to_vec(),
        ),
        (
            5,
            Tmessage::Wstat(Twstat { fid, stat: STAT }),
            [&b"\x51\0\0\0\x7e\x05\0\x01\0\0\0"[..], &stat].concat(),
        ),
    ];
    [shared_requests!(), own].concat()
}

/// The same of each reply.
fn replies() -> Vec<(u16, Rmessage<'static>, Vec<u8>)> {
    let (ename, errno) = (Text::from_static("no"), 2);
    let own = vec![
        (
            3,
            Rmessage::Error(Rerror { ename, errno }),
            b"\x0f\0\0\0\x6b\x03\0\x02\0no\x02\0\0\0".to_vec(),
        ),
        (
            4,
            Rmessage::Stat(Rstat { stat: STAT }),
            [
                &b"\x4d\0\0\0\x7d\x04\0\x44\0\x42\0"[..],
                NUMBERS,
                STRINGS,
                MORE,
            ]
            .concat(),
        ),
    ];
    [shared_replies!(), own].concat()
}

each_frame_is_held!();

an_exchange_is_held!(
    Rerror {
        ename: Text::from_static("file not found"),
        errno: 2,
    },
    b"\x1b\0\0\0\x6b\x0c\0\x0e\0file not found\x02\0\0\0"
);

/// It knows the types of 9P2000, and no other.
#[test]
fn the_types_are_those_of_9p2000() {
    for ty in 0..=255 {
        assert_eq!(message_name(ty), plain::message_name(ty), "{ty}");
        let bytes = framed(ty, 5, &[0; 200]);
        let refusal = match ty % 2 {
            0 => Tframe::decode(&bytes).unwrap().frame.msg.err(),
            _ => Rframe::decode(&bytes).err(),
        };
        let is_unknown = refusal == Some(Refusal::UnknownType);
        assert_eq!(is_unknown, message_name(ty).is_none(), "{ty}");
        for reply in 0..=255 {
            let mark = |ty| Mark { ty, tag: Tag(1) };
            let (request, reply) = (mark(ty), mark(reply));
            assert_eq!(answers(request, reply), plain::answers(request, reply));
        }
    }
    let other = Mark {
        ty: 107,
        tag: Tag(2),
    };
    let request = Mark {
        ty: 114,
        tag: Tag(1),
    };
    assert!(!answers(request, other));
}

/// Read as 9P2000, a longer frame gives the same fields, and the rest is tail; read as .u, a shorter one is
/// short until all that it lacks is there.
#[test]
fn frames_of_one_edition_in_the_other() {
    for (short, more) in [
        (TAUTH, &b"\xe8\x03\0\0"[..]),
        (TATTACH, b"\xe8\x03\0\0"),
        (RERROR, b"\x02\0\0\0"),
        (TCREATE, b"\x02\0xy"),
    ] {
        let whole = longer(short, more);
        let alone = plain::stretch(short).next().unwrap().unwrap();
        let tailed = plain::stretch(&whole).next().unwrap().unwrap();
        assert_eq!((alone.tail, tailed.tail), (0, more.len()));
        assert_eq!(alone.body, tailed.body);
        assert_eq!(alone.body.refusal(), None);

        for tail in 0..more.len() {
            let bytes = longer(short, &more[..tail]);
            let listed = stretch(&bytes).next().unwrap().unwrap();
            assert_eq!(listed.body.refusal(), Some(Refusal::Short), "{tail}");
        }
        let listed = stretch(&whole).next().unwrap().unwrap();
        assert_eq!((listed.body.refusal(), listed.tail), (None, 0));
        // The fields that both have are the same, and one is more.
        let fields: Vec<_> = listed.fields().collect();
        let before: Vec<_> = tailed.fields().collect();
        assert_eq!(fields[..before.len()], before);
        assert_eq!(fields.len(), before.len() + 1);
    }
    // The tail may be longer than what is lacking.
    let bytes = longer(RERROR, b"\x02\0\0\0\xee");
    assert_eq!(stretch(&bytes).next().unwrap().unwrap().tail, 1);
    // An extension that is cut, and one that is no text.
    for (more, refusal) in [
        (&b"\x02\0x"[..], Refusal::Short),
        (b"\x01\0\xff", Refusal::NotUtf8 { at: 21 }),
    ] {
        let bytes = longer(TCREATE, more);
        assert_eq!(Tframe::decode(&bytes).unwrap().frame.msg, Err(refusal));
        assert!(plain::Tframe::decode(&bytes).unwrap().frame.msg.is_ok());
    }
}

/// 9P2000.L's records are the same, and so are their bytes.
#[test]
fn a_tattach_is_that_of_9p2000_l() {
    let bytes = longer(TATTACH, b"\xe8\x03\0\0");
    let Ok(Tmessage::Attach(unix)) = Tframe::decode(&bytes).unwrap().frame.msg else {
        panic!();
    };
    let l = sheafsledge::Tframe::decode(&bytes).unwrap().frame.msg;
    assert_eq!(l, Ok(sheafsledge::Tmessage::Attach(unix)));
}

/// A stat of either edition is 18 in the other, whatever its strings are.
#[test]
fn stats_of_one_edition_in_the_other() {
    let malformed = Refusal::StatMalformed;
    let read = |bytes: &[u8]| Rframe::decode(bytes).map(|read| read.used);
    let read_plain = |bytes: &[u8]| plain::Rframe::decode(bytes).map(|read| read.used);
    let old = rstat(53, 51, STRINGS);
    assert_eq!((read_plain(&old), read(&old)), (Ok(62), Err(malformed)));
    let new = rstat(68, 66, &[STRINGS, MORE].concat());
    assert_eq!((read_plain(&new), read(&new)), (Err(malformed), Ok(77)));
    let empty = [rstat(49, 47, &[0; 8]), rstat(63, 61, &[0; 22])];
    assert_eq!(read_plain(&empty[0]), Ok(58));
    assert_eq!(read(&empty[0]), Err(malformed));
    assert_eq!(read_plain(&empty[1]), Err(malformed));
    assert_eq!(read(&empty[1]), Ok(72));

    let fid = b"\x01\0\0\0";
    for (bytes, of_plain) in [(&old, true), (&new, false)] {
        let wstat = framed(126, 5, &[fid, &bytes[7..]].concat());
        let msg = Tframe::decode(&wstat).unwrap().frame.msg;
        let plain = plain::Tframe::decode(&wstat).unwrap().frame.msg;
        assert_eq!((msg.is_ok(), plain.is_ok()), (!of_plain, of_plain));
        let refusal = msg.err().or(plain.err());
        assert_eq!(refusal, Some(malformed));
    }
}

#[track_caller]
fn refused(bytes: &[u8], refusal: Refusal) {
    assert_eq!(Rframe::decode(bytes), Err(refusal));
}

#[test]
fn a_stats_counts_have_to_agree() {
    let malformed = Refusal::StatMalformed;
    let all = [STRINGS, MORE].concat();
    assert!(Rframe::decode(&rstat(68, 66, &all)).is_ok());
    // Its count is 0 before a full stat, as a server that is in use sends it.
    refused(&rstat(0, 66, &all), malformed);
    // The count and the size, each off by one.
    refused(&rstat(67, 66, &all), malformed);
    refused(&rstat(69, 66, &all), Refusal::Short);
    refused(&rstat(68, 65, &all), malformed);
    refused(&rstat(68, 67, &all), malformed);
    let tailed = [&all[..], b"\0"].concat();
    refused(&rstat(69, 66, &tailed), malformed);
    refused(&rstat(69, 67, &tailed), malformed);
    // The extension's count, off by one either way: its numbers end elsewhere.
    for count in [0, 2] {
        let mut rest = all.clone();
        rest[STRINGS.len()] = count;
        refused(&rstat(68, 66, &rest), malformed);
    }
    // It runs past the count, in a frame that holds the bytes.
    let mut rest = [&all[..], &[0; 300]].concat();
    rest[STRINGS.len()] = 14;
    refused(&rstat(68, 66, &rest), malformed);

    // Text after the ends, with its place: the extension's letter is byte 64.
    let extended = |extension: &[u8]| [STRINGS, extension, &MORE[3..]].concat();
    refused(
        &rstat(68, 66, &extended(b"\x01\0\xff")),
        Refusal::NotUtf8 { at: 64 },
    );
    refused(
        &rstat(68, 66, &extended(b"\x01\0\0")),
        Refusal::ZeroByte { at: 64 },
    );
    refused(&rstat(68, 66, &extended(b"\0\0\xff")), malformed);
}

#[test]
fn a_stat_is_written_up_to_its_count() {
    let long = "n".repeat(65_535);
    let stat = |name: usize, extension: usize| {
        let [name, extension] = [name, extension].map(|len| Text::new(&long[..len]).unwrap());
        let none = Text::default();
        let (uid, gid, muid) = (none, none, none);
        Stat {
            name,
            uid,
            gid,
            muid,
            extension,
            ..STAT
        }
    };
    // The count is 63 and the lengths of the strings: 65,535 fits, and one more does not.
    for (name, extension) in [(65_472, 0), (0, 65_472), (40_000, 25_472)] {
        let mut out = vec![0xaa; 70_000];
        let msg = Rmessage::Stat(Rstat {
            stat: stat(name, extension),
        });
        let tag = Tag(4);
        let reply = Rframe { tag, msg };
        assert_eq!(reply.encode(&mut out), Ok(65_544));
        assert_eq!(out[..11], *b"\x08\0\x01\0\x7d\x04\0\xff\xff\xfd\xff");
        assert_eq!(read_r(&out), Ok((tag, msg, 65_544)));
        let msg = Rmessage::Stat(Rstat {
            stat: stat(name + 1, extension),
        });
        let mut out = vec![0xaa; 70_000];
        let refused = Rframe { tag, msg }.encode(&mut out);
        assert_eq!(refused, Err(Refusal::StatMalformed));
        assert!(out.iter().all(|byte| *byte == 0xaa));
    }
}

#[test]
fn fields_stand_where_they_are_said_to() {
    let bytes = rstat(68, 66, &[STRINGS, MORE].concat());
    let frame = stretch(&bytes).last().unwrap().unwrap();
    let fields: Vec<_> = frame.fields().collect();
    let [stat] = &fields[..] else {
        panic!("{fields:?}");
    };
    assert_eq!(
        (stat.name, stat.range.clone(), stat.value),
        ("stat", 7..77, Value::UnixStat(STAT))
    );
    let texts: Vec<_> = stat.texts().map(|(range, _)| range).collect();
    assert_eq!(texts, [52..53, 55..56, 58..58, 60..62, 64..65]);
    let parts: Vec<_> = stat.parts().map(|part| (part.name, part.range)).collect();
    let owed = [
        ("extension", 62..65),
        ("n_uid", 65..69),
        ("n_gid", 69..73),
        ("n_muid", 73..77),
    ];
    assert_eq!(parts[11..], owed);
    let values: Vec<_> = stat.value.parts().map(|(name, _)| name).collect();
    let names: Vec<_> = parts.iter().map(|(name, _)| *name).collect();
    assert_eq!(values, names);
}

/// What the example says of its recording, by hand: it is read in the dialect that its Rversion names.
#[test]
fn the_example_reads_by_the_version() {
    let bytes = include_bytes!("../../examples/recorder-session.bin");
    let told = r#"0 65535 Tversion msize=8192 version="9P2000.u"
21 65535 Rversion msize=8192 version="9P2000.u"
42 1 Tattach fid=0 afid=4294967295 uname="station" aname="" n_uname=1000
72 1 Rattach qid=128.0.1
92 2 Twalk fid=0 newfid=1 wnames=["spectrometer", "count"]
130 2 Rwalk wqids=128.0.2,0.7.3
165 3 Topen fid=1 mode=0
177 3 Ropen qid=0.7.3 iounit=0
201 4 Tread fid=1 offset=0 count=64
224 4 Rread data=12 bytes
247 5 Tstat fid=1
258 5 Rstat stat=(ty=0 dev=0 qid=0.7.3 mode=292 atime=1000000000 mtime=1000000001 length=12 name="count" uid="station" gid="sci" muid="" extension="" n_uid=1000 n_gid=100 n_muid=4294967295)
345 6 Twstat fid=1 stat=(ty=65535 dev=4294967295 qid=255.4294967295.18446744073709551615 mode=4294967295 atime=4294967295 mtime=4294967295 length=18446744073709551615 name="count.old" uid="" gid="" muid="" extension="" n_uid=4294967295 n_gid=4294967295 n_muid=4294967295)
430 6 Rerror ename="permission denied" errno=13
460 7 Tcreate fid=0 name="log" perm=33554943 mode=0 extension="count"
488 7 Rcreate qid=2.0.4 iounit=0
512 8 Tclunk fid=1
523 8 Rclunk
"#;
    assert_eq!(words::session(bytes), (told.to_string(), None));

    // The same bytes under a version of 9P2000: a Tattach has a tail, and the stats are refused.
    let (frames, rest) = (&bytes[42..], "9P2000");
    let version = |ty| framed(ty, 65535, &[b"\0\x20\0\0\x06\0", rest.as_bytes()].concat());
    let plain = [&version(100)[..], &version(101), frames].concat();
    let (text, wrong) = words::session(&plain);
    assert_eq!(wrong, None);
    let attach = "38 1 Tattach fid=0 afid=4294967295 uname=\"station\" aname=\"\"\n";
    assert!(text.contains(attach), "{text}");
    assert_eq!(text.matches("(refusal 18)").count(), 2, "{text}");

    let unknown = framed(101, 65535, b"\0\x20\0\0\x07\0unknown");
    let (text, wrong) = words::session(&unknown);
    assert_eq!(
        (&text[..], wrong.as_deref()),
        ("", Some("no dialect \"unknown\" here"))
    );
    let (text, wrong) = words::session(frames);
    assert_eq!(
        (&text[..], wrong.as_deref()),
        ("", Some("no Rversion says its dialect"))
    );
}
