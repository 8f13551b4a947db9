//! The paper's frames, and the refusals of both directions.

use sheafsledge::*;

const A: &[u8] = b"\x15\0\0\0\x64\xff\xff\0\x20\0\0\x08\09P2000.L";
const E: &[u8] = b"\x18\0\0\0\x6e\x03\0\x01\0\0\0\x02\0\0\0\x02\0\x01\0a\x02\0bc";

fn again(bytes: &[u8]) -> Vec<u8> {
    let read = Tframe::decode(bytes).expect("a header");
    let mut out = [0xee; 64];
    let len = read.frame.encode(&mut out).expect("a message");
    assert!(out[len..].iter().all(|byte| *byte == 0xee));
    out[..len].to_vec()
}

#[test]
fn a_request_is_read_and_written() {
    let read = Tframe::decode(A).unwrap();
    let version = Text::from_static("9P2000.L");
    let msg = Tmessage::Version(Tversion {
        msize: 8192,
        version,
    });
    assert_eq!(
        (read.frame.tag, read.frame.msg, read.used),
        (Tag(65535), Ok(msg), 21)
    );
    assert_eq!(again(A), A);
}

#[test]
fn a_walk_has_its_names() {
    let Ok(Tmessage::Walk(walk)) = Tframe::decode(E).unwrap().frame.msg else {
        panic!("a Twalk");
    };
    assert_eq!(walk.wnames.iter().collect::<Vec<_>>(), ["a", "bc"]);
    assert_eq!(again(E), E);
}

#[test]
fn a_tail_is_no_request() {
    let k = b"\x0b\0\0\0\x6c\x01\0\x02\0\xaa\xbb";
    assert_eq!(Tframe::decode(k).unwrap().used, 9);
    assert_eq!(again(k), b"\x09\0\0\0\x6c\x01\0\x02\0");
}

#[test]
fn refusals_have_their_numbers() {
    let number = |bytes| Tframe::decode(bytes).map_err(Refusal::number);
    assert_eq!(number(b"\x03\0\0\0"), Err(2));
    assert_eq!(number(b"\x04\0\0\0"), Err(1));
    let j = Tframe::decode(b"\x07\0\0\0\x6a\x05\0").unwrap().frame;
    assert_eq!((j.tag, j.msg), (Tag(5), Err(Refusal::UnknownType)));
    assert_eq!(j.encode(&mut [0; 64]), Err(Refusal::HoldsRefusal));
    let error = std::io::Error::from(Refusal::Short);
    assert_eq!(error.kind(), std::io::ErrorKind::UnexpectedEof);
}

/// A Tversion of these bytes. The string's first is byte 13.
fn tversion(version: &[u8]) -> Vec<u8> {
    let mut frame = b"\0\0\0\0\x64\xff\xff\0\x20\0\0".to_vec();
    frame.extend((version.len() as u16).to_le_bytes());
    frame.extend(version);
    let size = frame.len() as u32;
    frame[..4].copy_from_slice(&size.to_le_bytes());
    frame
}

/// The paper's L, M and N: a zero byte spelt too long, a zero byte, and a byte that no character has after one.
#[test]
fn a_refusal_of_a_text_says_which_byte() {
    let l = tversion(b"\xc0\x80");
    assert_eq!(refused(&l), Refusal::NotUtf8 { at: 13 });
    let m = tversion(b"a\0");
    assert_eq!(refused(&m), Refusal::ZeroByte { at: 14 });
    let n = tversion(b"\0\xff");
    let refusal = refused(&n);
    assert_eq!(refusal, Refusal::NotUtf8 { at: 14 });
    assert_eq!((refusal.number(), refusal.name()), (5, "NotUtf8"));
    let told = "a string is not UTF-8 at byte 14 (refusal 5)";
    assert_eq!(refusal.to_string(), told);
    let error = std::io::Error::from(refusal);
    assert_eq!(error.to_string(), told);
    assert_eq!(error.kind(), std::io::ErrorKind::InvalidInput);
}

/// A tag is told all the same, and nothing counts as used.
fn refused(frame: &[u8]) -> Refusal {
    let read = Tframe::decode(frame).expect("a header");
    assert_eq!((read.frame.tag, read.used), (Tag(65535), 0));
    read.frame.msg.expect_err("a refusal")
}

/// A character that breaks off is told by its first byte, and of zero bytes the first.
#[test]
fn a_text_breaks_where_its_longest_sound_start_ends() {
    let texts: [(&[u8], usize); 8] = [
        (b"\xe2\x82A", 0),
        (b"ab\xe2\x82A", 2),
        (b"\xe2\x82\xac\xe2\x82", 3),
        (b"a\xc3", 1),
        (b"a\xf0\x9f\x98", 1),
        (b"\xed\xa0\x80", 0),
        (b"\xc3\xa9\0\xc0\x80", 3),
        (b"a\x80\xff", 1),
    ];
    for (text, broken) in texts {
        let at = 13 + broken;
        assert_eq!(refused(&tversion(text)), Refusal::NotUtf8 { at });
        let at = broken;
        assert_eq!(Text::from_bytes(text), Err(Refusal::NotUtf8 { at }));
    }
    let two = b"a\0b\0";
    assert_eq!(refused(&tversion(two)), Refusal::ZeroByte { at: 14 });
    let first = Err(Refusal::ZeroByte { at: 1 });
    assert_eq!(Text::from_bytes(two), first);
    assert_eq!(Text::new("a\0b\0"), first);
    assert_eq!(
        symlink("ok", "a\0b\0", 64).map_err(|refusal| refusal.at()),
        Err(Some(1))
    );
}

/// Of two strings the first that is refused, counted from the first byte of what is read.
#[test]
fn the_place_counts_from_the_first_byte() {
    let place = |frame: &[u8]| {
        let read = Tframe::decode(frame).expect("a header").frame;
        read.msg.expect_err("a refusal").at()
    };
    // A Tsymlink: its name starts at 13, and what it points to at 17.
    let link = b"\x18\0\0\0\x10\x01\0\x01\0\0\0\x02\0ab\x03\0c\0\0\x02\0\0\0";
    assert_eq!(place(link), Some(18));
    let link = b"\x18\0\0\0\x10\x01\0\x01\0\0\0\x02\0a\0\x03\0c\xff\0\x02\0\0\0";
    assert_eq!(place(link), Some(14));
    // The second name of a walk, and the third after it.
    let walk = b"\x1b\0\0\0\x6e\x03\0\x01\0\0\0\x02\0\0\0\x03\0\x01\0a\x02\0b\x80\x01\0\0";
    assert_eq!(place(walk), Some(23));
    // Listed, the 21 bytes before it count too; those after it are not looked at.
    let mut frames = [A, walk, A].concat();
    let listed: Vec<_> = stretch(&frames)
        .map(|frame| frame.expect("a frame").body)
        .collect();
    let at = 21 + 23;
    assert_eq!(listed[1], Body::Request(Err(Refusal::NotUtf8 { at })));
    // An Rreadlink: its target starts at 9.
    frames = b"\x0c\0\0\0\x17\x01\0\x03\0a\xc3b".to_vec();
    assert_eq!(Rframe::decode(&frames), Err(Refusal::NotUtf8 { at: 10 }));
}

#[test]
fn replies_are_read_and_written() {
    let qid = Qid {
        ty: 128,
        version: 7,
        path: u64::MAX,
    };
    let mut buffer = [0; 26];
    let wqids = Qids::gather(&[qid, Qid::default()], &mut buffer).unwrap();
    let frame = Rframe {
        tag: Tag(3),
        msg: Rmessage::Walk(Rwalk { wqids }),
    };
    let mut out = [0; 64];
    let len = frame.encode(&mut out).unwrap();
    assert_eq!(len, 35);
    let read = Rframe::decode(&out[..len]).unwrap();
    assert_eq!((read.frame, read.used), (frame, len));
    let Rmessage::Walk(walk) = read.frame.msg else {
        panic!("an Rwalk")
    };
    assert_eq!(walk.wqids.iter().collect::<Vec<_>>(), [qid, Qid::default()]);
}

fn symlink(name: &str, symtgt: &str, room: usize) -> Result<usize, Refusal> {
    let link = Tsymlink {
        fid: Fid(1),
        name: Text::new(name)?,
        symtgt: Text::new(symtgt)?,
        gid: Gid(2),
    };
    let frame = Tframe {
        tag: Tag(1),
        msg: Ok(Tmessage::Symlink(link)),
    };
    let mut out = vec![0xee; room];
    let wrote = frame.encode(&mut out);
    match wrote {
        Ok(len) => {
            assert_eq!(Tframe::decode(&out[..len]).unwrap().frame, frame);
            assert!(out[len..].iter().all(|byte| *byte == 0xee));
            assert_eq!(frame.byte_size(), Ok(len));
        }
        Err(_) => assert!(out.iter().all(|byte| *byte == 0xee)),
    }
    wrote
}

#[test]
fn two_strings_are_written_whatever_their_length() {
    let long = "a".repeat(65_535);
    assert_eq!(symlink("ab", "c", 64), Ok(22));
    assert_eq!(symlink("", "", 19), Ok(19));
    assert_eq!(symlink("", "c", 20), Ok(20));
    assert_eq!(symlink("ab", "", 64), Ok(21));
    assert_eq!(symlink(&long, &long, 200_000), Ok(131_089));
    assert_eq!(symlink(&long, &long, 131_088), Err(Refusal::NoRoom));
    assert_eq!(symlink("ab", "c", 21), Err(Refusal::NoRoom));
}

/// The longest strings and walks leave enough of a thread that has 64 KiB.
#[test]
fn the_longest_frames_need_little_stack() {
    let writes = || {
        let long = "a".repeat(65_535);
        assert_eq!(symlink(&long, &long, 200_000), Ok(131_089));
        let names = [&long[..]; 16];
        let wnames = Names::of(&names).unwrap();
        let (fid, newfid) = (Fid(1), Fid(2));
        let msg = Ok(Tmessage::Walk(Twalk {
            fid,
            newfid,
            wnames,
        }));
        let mut out = vec![0; 1_048_609];
        let len = Tframe { tag: Tag(1), msg }.encode(&mut out).unwrap();
        assert_eq!(len, 17 + 16 * 65_537);
    };
    let thread = std::thread::Builder::new().stack_size(64 << 10);
    thread.spawn(writes).unwrap().join().unwrap();
}

const OF_TWO: [u8; 4] = [16, 74, 102, 104];

/// Over the boundary itself, since the crate asks for no other types, and has no other strings.
fn write_two(out: &mut [u8], ty: u8, [first, second]: [&[u8]; 2]) -> sheafsledge_sys::Outcome {
    let values = [7; sheafsledge_sys::T_VALUES];
    let tag = sheafsledge_sys::Tag(1);
    // SAFETY: the pointers and counts are of slices, and the output is borrowed alone.
    unsafe {
        sheafsledge_sys::sheafsledge_write_two(
            out.as_mut_ptr(),
            out.len(),
            first.as_ptr(),
            first.len(),
            second.as_ptr(),
            second.len(),
            ty,
            tag,
            &values,
        )
    }
}

/// Of the 256 types four are written from two slices, and the others refused with 3.
#[test]
fn four_types_have_two_strings() {
    for ty in 0..=u8::MAX {
        let mut out = [0xee; 64];
        let wrote = write_two(&mut out, ty, [b"ab", b"c"]);
        let has_two = OF_TWO.contains(&ty);
        assert_eq!(wrote.refusal, if has_two { 0 } else { 3 }, "type {ty}");
        assert_eq!(out == [0xee; 64], !has_two, "type {ty}");
    }
}

/// The second string counts on from the first.
#[test]
fn two_strings_are_one_text_to_the_library() {
    let cases: [(&[u8], &[u8], u8, usize); 7] = [
        (b"ab\0\0", b"\xff", 6, 2),
        (b"\0\xe2\x82A", b"\0", 5, 1),
        (b"ab", b"\0", 6, 2),
        (b"ab", b"c\0\0", 6, 3),
        (b"ab", b"\0\xe2\x82A", 5, 3),
        (b"", b"\xff", 5, 0),
        (b"\xc3", b"\xa9", 5, 0),
    ];
    for ty in OF_TWO {
        for (first, second, refusal, place) in cases {
            let mut out = [0xee; 64];
            let wrote = write_two(&mut out, ty, [first, second]);
            assert_eq!((wrote.refusal, wrote.place), (refusal, place), "type {ty}");
            assert_eq!(out, [0xee; 64]);
        }
    }
}
