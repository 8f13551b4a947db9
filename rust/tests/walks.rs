//! The elements of walks in order and by their numbers, and walks written from tables.

use sheafsledge::*;

const HEAD: WalkHead = WalkHead {
    tag: Tag(3),
    fid: Fid(1),
    newfid: Fid(2),
};

/// The paper's frame E: a Twalk of "a" and "bc".
const E: &[u8] = b"\x18\0\0\0\x6e\x03\0\x01\0\0\0\x02\0\0\0\x02\0\x01\0a\x02\0bc";

fn names_of(frame: &[u8]) -> Names<'_> {
    match Tframe::decode(frame).expect("a header").frame.msg {
        Ok(Tmessage::Walk(walk)) => walk.wnames,
        _ => panic!("a Twalk"),
    }
}

fn qids_of(frame: &[u8]) -> Qids<'_> {
    match Rframe::decode(frame).expect("a reply").frame.msg {
        Rmessage::Walk(walk) => walk.wqids,
        _ => panic!("an Rwalk"),
    }
}

#[test]
fn names_are_the_same_in_order_and_by_number() {
    let text = "a bc  höhe 😀".as_bytes();
    for rows in [
        &[][..],
        &[[0, 0]],
        &[[0, 1], [2, 2], [4, 0], [6, 5], [12, 4], [0, 16]],
        &[[6, 5]; 16],
    ] {
        let mut out = vec![0; 8192];
        let len = write_twalk(&mut out, text, HEAD, rows).expect("room");
        let names = names_of(&out[..len]);
        assert_eq!((names.len(), names.iter().len()), (rows.len(), rows.len()));
        let in_order: Vec<_> = names.iter().collect();
        let by_number: Vec<_> = (0..rows.len()).map(|i| names.get(i).unwrap()).collect();
        assert_eq!(in_order, by_number);
        let expected = rows.iter().map(|[start, len]| &text[*start..start + len]);
        assert!(in_order.iter().map(|name| name.as_bytes()).eq(expected));
        for i in [rows.len(), usize::MAX] {
            assert_eq!(names.get(i), Err(Refusal::NoSuchElement));
        }
    }
}

#[test]
fn qids_are_the_same_in_order_and_by_number() {
    let qid = |i: u64| Qid {
        ty: i as u8,
        version: !(i as u32),
        path: i.wrapping_mul(0x0102_0304_0506_0708),
    };
    for count in [0, 1, 2, 16] {
        let qids: Vec<Qid> = (0..count).map(qid).collect();
        let mut out = vec![0; 8192];
        let len = write_rwalk(&mut out, Tag(3), &qids).expect("room");
        let read = qids_of(&out[..len]);
        assert_eq!(read.iter().collect::<Vec<_>>(), qids);
        let by_number: Vec<_> = (0..qids.len()).map(|i| read.get(i).unwrap()).collect();
        assert_eq!(by_number, qids);
        assert_eq!(read.get(qids.len()), Err(Refusal::NoSuchElement));
    }
}

#[test]
fn a_twalk_from_a_table_has_the_papers_bytes() {
    let mut out = [0xee; 30];
    assert_eq!(
        write_twalk(&mut out, b"abc", HEAD, &[[0, 1], [1, 2]]),
        Ok(24)
    );
    assert_eq!(out[..24], *E);
    assert_eq!(out[24..], [0xee; 6]);
}

#[test]
fn an_rwalk_from_a_table_has_the_papers_bytes() {
    let mut out = [0xee; 30];
    assert_eq!(write_rwalk(&mut out, Tag(3), &[]), Ok(9));
    assert_eq!(out[..9], *b"\x09\0\0\0\x6f\x03\0\0\0");
    let qid = Qid {
        ty: 1,
        version: 2,
        path: 3,
    };
    assert_eq!(write_rwalk(&mut out, Tag(3), &[qid]), Ok(22));
    assert_eq!(out[..9], *b"\x16\0\0\0\x6f\x03\0\x01\0");
    assert_eq!(out[9..22], *b"\x01\x02\0\0\0\x03\0\0\0\0\0\0\0");
    assert_eq!(out[22..], [0xee; 8]);
}

#[test]
fn refused_tables_leave_the_output_as_it_was() {
    let text = [b"ab\0\xff", &[b'a'; 65_536][..]].concat();
    let refused = |rows: &[[usize; 2]], room: usize| {
        let mut out = vec![0xee; room];
        let refusal = write_twalk(&mut out, &text, HEAD, rows).expect_err("a refusal");
        assert!(out.iter().all(|byte| *byte == 0xee));
        refusal
    };
    assert_eq!(refused(&[[0, 2], [65_540, 1]], 64), Refusal::SpanOutside);
    assert_eq!(refused(&[[usize::MAX, 2]], 64), Refusal::SpanOutside);
    assert_eq!(refused(&[[4, 65_536]], 64), Refusal::StringTooLong);
    assert_eq!(refused(&[[0, 4]], 64), Refusal::NotUtf8 { at: 3 });
    assert_eq!(refused(&[[0, 3]], 64), Refusal::ZeroByte { at: 2 });
    assert_eq!(refused(&[[0, 2]], 20), Refusal::NoRoom);
    // The rows are not looked at.
    for count in [17, 40, 65_535, 65_536] {
        for room in [0, 64] {
            let rows = vec![[usize::MAX, 2]; count];
            assert_eq!(refused(&rows, room), Refusal::TooManyElements);
        }
    }
    let mut out = [0xee; 64];
    let qids = vec![Qid::default(); 65_536];
    for count in [17, 40, 65_535, 65_536] {
        let wrote = write_rwalk(&mut out, Tag(3), &qids[..count]);
        assert_eq!(wrote, Err(Refusal::TooManyElements));
    }
    assert_eq!(
        write_rwalk(&mut out, Tag(3), &qids[..5]),
        Err(Refusal::NoRoom)
    );
    assert_eq!(out, [0xee; 64]);
}

/// A table's names are refused at a byte of the text that they are parts of; the first one that is.
#[test]
fn a_table_tells_a_byte_of_its_text() {
    let text = b"ab\0c\xe2\x82A\xc3\xa9\0";
    let refused = |rows: &[[usize; 2]]| write_twalk(&mut [0; 64], text, HEAD, rows).unwrap_err();
    let broken = |at| Refusal::NotUtf8 { at };
    assert_eq!(refused(&[[0, 2], [3, 4]]), broken(4));
    assert_eq!(refused(&[[5, 1], [2, 1]]), broken(5));
    // Both in one: what is no UTF-8 comes first, though it stands after the zero byte.
    assert_eq!(refused(&[[0, 2], [0, 5]]), broken(4));
    // Halves of a character.
    assert_eq!(refused(&[[7, 1]]), broken(7));
    assert_eq!(refused(&[[7, 2], [8, 1]]), broken(8));
    assert_eq!(refused(&[[0, 3], [4, 1]]), Refusal::ZeroByte { at: 2 });
    assert_eq!(refused(&[[7, 3], [0, 3]]), Refusal::ZeroByte { at: 9 });
}

/// Whichever name is asked for, the first that fails is told of, by its byte among those lent. Over
/// the boundary itself, since the crate holds no such names.
#[test]
fn the_first_name_that_fails_is_told() {
    // Two bytes before the part; in it "a", "b", a zero byte and "c", "\xff", "".
    let lent = b"\xff\0\x01\0a\x03\0b\0c\x01\0\xff\0\0";
    for (i, count) in [(0, 4), (1, 4), (2, 4), (3, 4), (0, 3), (1, 2)] {
        let mut span = [7; sheafsledge_sys::SPAN_VALUES];
        let (from, all, len) = (lent.as_ptr(), lent.len(), lent.len() - 2);
        // SAFETY: pointer and count are an array's, and the span is borrowed alone.
        let found =
            unsafe { sheafsledge_sys::sheafsledge_name_at(from, all, count, 2, len, i, &mut span) };
        assert_eq!((found.refusal, found.place), (6, 8), "{i} of {count}");
        assert_eq!(span, [7; sheafsledge_sys::SPAN_VALUES]);
    }
}

#[test]
fn what_is_gathered_is_what_the_frame_holds() {
    let mut buffer = [0xee; 16];
    let names = Names::gather(&["a", "bc"], &mut buffer).expect("room");
    assert_eq!(names, names_of(E));
    assert_eq!(buffer[..7], E[17..], "as the frame has them");
    assert_eq!(buffer[7..], [0xee; 9], "and nothing after them");
}

#[test]
fn a_refused_gathering_leaves_the_buffer_as_it_was() {
    let long = "a".repeat(65_536);
    let many = ["\0"; 17];
    let refused = [
        (&["a", "bc", &long][..], Refusal::StringTooLong),
        (&["a", "bc"], Refusal::NoRoom),
        (&many, Refusal::TooManyElements),
    ];
    for (names, refusal) in refused {
        let mut buffer = [0xee; 6];
        assert_eq!(Names::gather(names, &mut buffer), Err(refusal));
        assert_eq!(buffer, [0xee; 6]);
    }
    let mut buffer = [0xee; 25];
    let qids = Qids::gather(&[Qid::default(); 2], &mut buffer);
    assert_eq!(qids, Err(Refusal::NoRoom));
    assert_eq!(buffer, [0xee; 25]);
}

/// Frames written from the caller's own names and qids, beside those from tables and from a buffer.
#[test]
fn lent_elements_are_written_as_gathered_ones() {
    let long = "ü".repeat(300);
    let sixteen = ["a"; 16];
    let most = [&long[..]; 16];
    for names in [
        &[][..],
        &[""],
        &["a", "höhe", ""],
        &[&long],
        &sixteen,
        &most,
    ] {
        let mut buffer = vec![0; 16_384];
        let gathered = Names::gather(names, &mut buffer).expect("room");
        let lent = Names::of(names).expect("names");
        assert_eq!(lent, gathered);
        assert_eq!(format!("{lent:?}"), format!("{names:?}"));
        assert_eq!(lent.get(names.len()), Err(Refusal::NoSuchElement));
        let framed = [gathered, lent].map(|wnames| {
            let WalkHead { tag, fid, newfid } = HEAD;
            let msg = Ok(Tmessage::Walk(Twalk {
                fid,
                newfid,
                wnames,
            }));
            let frame = Tframe { tag, msg };
            let mut out = vec![0xee; 16_384];
            let len = frame.encode(&mut out).expect("room");
            assert_eq!(frame.byte_size(), Ok(len));
            assert_eq!(frame.encode(&mut out[..len - 1]), Err(Refusal::NoRoom));
            out
        });
        assert_eq!(framed[0], framed[1]);
        let [_, wnames] = [(); 2].map(|()| names_of(&framed[1]));
        assert!(wnames.into_iter().eq(lent));
    }
}

#[test]
fn lent_qids_are_written_as_gathered_ones() {
    let qid = |path| Qid {
        ty: 0x80,
        version: 7,
        path,
    };
    for count in [0, 1, 15, 16] {
        let qids: Vec<Qid> = (0..count).map(qid).collect();
        let mut buffer = vec![0; 8192];
        let gathered = Qids::gather(&qids, &mut buffer).expect("room");
        let lent = Qids::from(&qids[..]);
        assert_eq!(lent, gathered);
        assert_eq!((lent.len(), lent.is_empty()), (qids.len(), count == 0));
        let framed = [gathered, lent].map(|wqids| {
            let frame = Rframe {
                tag: Tag(3),
                msg: Rmessage::Walk(Rwalk { wqids }),
            };
            let mut out = vec![0xee; 4096];
            let len = frame.encode(&mut out).expect("room");
            assert_eq!(frame.byte_size(), Ok(len));
            out
        });
        assert_eq!(framed[0], framed[1]);
        assert!(qids_of(&framed[1]).iter().eq(qids));
    }
    let many = [Qid::default(); 17];
    let msg = Rmessage::Walk(Rwalk {
        wqids: Qids::from(&many[..]),
    });
    let frame = Rframe { tag: Tag(3), msg };
    assert_eq!(frame.byte_size(), Err(Refusal::TooManyElements));
    assert_eq!(frame.encode(&mut [0; 64]), Err(Refusal::TooManyElements));
}

#[test]
fn names_that_no_frame_holds_are_refused_at_once() {
    let long = "a".repeat(65_536);
    assert_eq!(Names::of(&["a", &long]), Err(Refusal::StringTooLong));
    let zero = |at| Err(Refusal::ZeroByte { at });
    assert_eq!(Names::of(&["a\0", &long]), zero(1));
    assert_eq!(Names::of(&["abc", "\0", "d\0"]), zero(0));
    assert_eq!(Names::gather(&["abc", "d\0\0"], &mut [0; 64]), zero(1));
    assert_eq!(Names::of(&["\0"; 17]), Err(Refusal::TooManyElements));
}

/// A path of forty directories, as a guest sent it: refused as a whole, with its tag; in two walks of
/// twenty, too; in three of at most sixteen it goes through.
#[test]
fn forty_names_take_three_walks() {
    let names: Vec<String> = (0..40).map(|i| format!("d{i:02}")).collect();
    let names: Vec<&str> = names.iter().map(String::as_str).collect();
    let frame = |names: &[&str]| {
        let mut frame = vec![0, 0, 0, 0, 110, 3, 0, 1, 0, 0, 0, 2, 0, 0, 0];
        frame.extend((names.len() as u16).to_le_bytes());
        for name in names {
            frame.extend((name.len() as u16).to_le_bytes());
            frame.extend(name.as_bytes());
        }
        frame[0] = u8::try_from(frame.len()).expect("a short frame");
        frame
    };
    let read = |names: &[&str]| {
        let frame = frame(names);
        let read = Tframe::decode(&frame).expect("a header").frame;
        assert_eq!(read.tag, Tag(3));
        read.msg.map(|msg| msg.ty())
    };
    assert_eq!(read(&names), Err(Refusal::TooManyElements));
    assert_eq!(read(&names[..20]), Err(Refusal::TooManyElements));
    for part in names.chunks(16) {
        assert_eq!(read(part), Ok(110));
    }
}
