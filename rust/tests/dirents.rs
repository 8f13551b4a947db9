//! Directory entries, by bytes that were put down by hand.

use sheafsledge::*;

/// The entry "ab" of a file, and "é" of a directory: qid, offset, type, name.
const AB: &[u8] = b"\0\x01\0\0\0\x02\0\0\0\0\0\0\0\x03\0\0\0\0\0\0\0\x08\x02\0ab";
const E: &[u8] = b"\x80\xff\xff\xff\xff\x04\0\0\0\0\0\0\x80\xff\0\0\0\0\0\0\0\x04\x02\0\xc3\xa9";

const OF_AB: Dirent = Dirent {
    qid: Qid {
        ty: 0,
        version: 1,
        path: 2,
    },
    offset: 3,
    ty: 8,
    name: Text::from_static("ab"),
};

const OF_E: Dirent = Dirent {
    qid: Qid {
        ty: 0x80,
        version: u32::MAX,
        path: 0x8000_0000_0000_0004,
    },
    offset: 255,
    ty: 4,
    name: Text::from_static("é"),
};

fn entries(data: &[u8]) -> Vec<Result<Dirent<'_>, Refusal>> {
    let data = Data(data);
    Rreaddir { data }.entries().collect()
}

#[test]
fn entries_come_one_by_one() {
    let both = [AB, E].concat();
    assert_eq!(entries(&both), [Ok(OF_AB), Ok(OF_E)]);
    assert_eq!(entries(b""), []);
    assert_eq!(Dirent::decode(&both, 26), Ok((OF_E, 52)));
}

#[test]
fn nothing_is_given_after_a_refusal() {
    for end in 27..52 {
        let cut = &[AB, E].concat()[..end];
        assert_eq!(entries(cut), [Ok(OF_AB), Err(Refusal::Short)], "{end}");
    }
    let surrogate = [AB, &E[..22], b"\x03\0\xed\xa0\x80", AB].concat();
    // The data's bytes count from its first, not from the entry's.
    let at = AB.len() + 24;
    assert_eq!(
        entries(&surrogate),
        [Ok(OF_AB), Err(Refusal::NotUtf8 { at })]
    );
    let zero = [&AB[..25], b"\0", E].concat();
    assert_eq!(entries(&zero), [Err(Refusal::ZeroByte { at: 25 })]);
    assert_eq!(Dirent::decode(AB, 27), Err(Refusal::Short));
    assert_eq!(Dirent::decode(AB, usize::MAX), Err(Refusal::Short));
}

/// From the first byte of the slice, wherever in it the entry stands.
#[test]
fn a_name_breaks_at_a_byte_of_the_slice() {
    let name = |before: usize, name: &[u8]| {
        let count = (name.len() as u16).to_le_bytes();
        let bytes = [&vec![0xff; before][..], &AB[..22], &count, name, E].concat();
        Dirent::decode(&bytes, before).expect_err("a refusal")
    };
    for before in [0, 1, 700] {
        let start = before + 24;
        let broken = |of| Refusal::NotUtf8 { at: start + of };
        assert_eq!(name(before, b"\xe2\x82A"), broken(0));
        assert_eq!(name(before, b"a\0\xe2\x82"), broken(2));
        let at = start + 1;
        assert_eq!(name(before, b"a\0b\0"), Refusal::ZeroByte { at });
    }
}

#[test]
fn entries_are_written_at_their_places() {
    let mut out = [0xee; 60];
    assert_eq!(OF_AB.encode(&mut out, 3), Ok(29));
    assert_eq!(OF_E.encode(&mut out, 29), Ok(55));
    assert_eq!(out[..3], [0xee; 3]);
    assert_eq!(out[3..55], [AB, E].concat());
    assert_eq!(out[55..], [0xee; 5]);
}

#[test]
fn a_refused_entry_leaves_the_output_as_it_was() {
    let refused = |entry: Dirent, room: usize, at: usize| {
        let mut out = vec![0xee; room];
        let refusal = entry.encode(&mut out, at).expect_err("a refusal");
        assert!(out.iter().all(|byte| *byte == 0xee));
        refusal
    };
    assert_eq!(refused(OF_AB, 28, 3), Refusal::NoRoom);
    assert_eq!(refused(OF_AB, 28, 29), Refusal::NoRoom);
    assert_eq!(refused(OF_AB, 28, usize::MAX), Refusal::FrameTooLong);
    let name = &"é".repeat(32_767);
    let name = Text::new(name).expect("65,534 bytes");
    let entry = Dirent { name, ..OF_AB };
    let mut out = vec![0; 65_558];
    assert_eq!(entry.encode(&mut out, 0), Ok(65_558));
    assert_eq!(entry.byte_size(), 65_558);
    assert_eq!(entries(&out), [Ok(entry)]);
}

/// Entries as a table of them would be packed one by one, and where each ends.
fn ends(entries: &[Dirent]) -> Vec<usize> {
    let mut end = 0;
    let ends = entries.iter().map(|entry| {
        end += entry.byte_size();
        end
    });
    ends.collect()
}

fn named(names: &[&'static str]) -> Vec<Dirent<'static>> {
    let entry = |(name, offset): (&&'static str, u64)| Dirent {
        name: Text::from_static(name),
        offset,
        ..OF_E
    };
    names.iter().zip(1..).map(entry).collect()
}

/// Around each end, one byte less and one byte more, of the count and of the buffer.
#[test]
fn as_many_are_packed_as_fit() {
    let entries = named(&[
        "a",
        "a longer name than most",
        "bc",
        "",
        "é",
        "sixteen letters!",
        "d",
    ]);
    let ends = ends(&entries);
    let whole: Vec<u8> = entries
        .iter()
        .flat_map(|entry| {
            let mut out = vec![0; entry.byte_size()];
            assert_eq!(entry.encode(&mut out, 0), Ok(out.len()));
            out
        })
        .collect();
    for limit in 0..whole.len() + 3 {
        let fits = ends.iter().filter(|end| **end <= limit).count();
        let used = if fits == 0 { 0 } else { ends[fits - 1] };
        for (room, count) in [
            (limit, whole.len() + 9),
            (whole.len() + 9, limit),
            (limit, limit),
        ] {
            let mut buffer = vec![0xee; room];
            let packed = Rreaddir::pack(&mut buffer, count as u32, entries.iter().copied());
            let packed = packed.expect("texts are never refused");
            assert_eq!(packed.entries, fits, "{room} {count}");
            assert_eq!(packed.left, entries.get(fits).copied(), "{room} {count}");
            assert_eq!(*packed.reply.data, whole[..used], "{room} {count}");
            let listed: Vec<_> = packed
                .reply
                .entries()
                .collect::<Result<_, _>>()
                .expect("sound");
            assert_eq!(listed, entries[..fits]);
            assert!(
                buffer[used..].iter().all(|byte| *byte == 0xee),
                "{room} {count}"
            );
        }
    }
}

/// A smaller one after it would have room.
#[test]
fn none_after_the_first_that_does_not_fit_is_taken() {
    let entries = named(&["a", "a longer name than most", "b", "c"]);
    let mut left = entries.iter().copied();
    let mut buffer = [0; 60];
    let packed = Rreaddir::pack(&mut buffer, 60, left.by_ref()).expect("texts");
    assert_eq!((packed.entries, packed.left), (1, Some(entries[1])));
    assert_eq!(left.next(), Some(entries[2]));

    let none = Rreaddir::pack(&mut [], 60, left.by_ref()).expect("texts");
    assert_eq!((none.entries, none.left), (0, Some(entries[3])));
    assert_eq!(none.reply.data.len(), 0);
    let all = Rreaddir::pack(&mut buffer, u32::MAX, left).expect("texts");
    assert_eq!((all.entries, all.left), (0, None));
}

/// Names of none to forty bytes, in an order in which short and long ones come by turns and in runs,
/// packed by every count.
#[test]
fn many_entries_are_packed_in_their_order() {
    let letters = "abcdefghijklmnopqrstuvwxyzabcdefghijklmnop";
    let lens = (0..120).map(|i| match i / 40 {
        0 => i % 41,
        1 => [12, 16, 17, 8, 7][i % 5],
        _ => 13,
    });
    let (mut entries, mut bytes, mut ends) = (Vec::new(), Vec::new(), vec![0]);
    for (i, len) in lens.enumerate() {
        let (version, path, offset) = (7 * i as u32, u64::MAX - i as u64, i as u64 + 1);
        bytes.push(0x80);
        bytes.extend_from_slice(&version.to_le_bytes());
        bytes.extend_from_slice(&path.to_le_bytes());
        bytes.extend_from_slice(&offset.to_le_bytes());
        bytes.push(4);
        bytes.extend_from_slice(&(len as u16).to_le_bytes());
        bytes.extend_from_slice(&letters.as_bytes()[..len]);
        ends.push(bytes.len());
        let ty = 0x80;
        entries.push(Dirent {
            qid: Qid { ty, version, path },
            offset,
            ty: 4,
            name: Text::new(&letters[..len]).expect("plain"),
        });
    }
    for count in 0..=bytes.len() + 1 {
        let fits = ends.iter().filter(|end| **end <= count).count() - 1;
        for room in [count, bytes.len() + 1] {
            let (mut buffer, mut left) = (vec![0xee; room], entries.iter().copied());
            let packed = Rreaddir::pack(&mut buffer, count as u32, left.by_ref()).expect("texts");
            assert_eq!(
                (packed.entries, packed.left),
                (fits, entries.get(fits).copied())
            );
            assert_eq!(*packed.reply.data, bytes[..ends[fits]]);
            // The one that does not fit is taken, and none after it.
            assert_eq!(left.next(), entries.get(fits + 1).copied());
            assert!(buffer[ends[fits]..].iter().all(|byte| *byte == 0xee));
        }
    }
}

/// A row for an entry whose name is a part of the names.
fn row(entry: &Dirent, start: usize, len: usize) -> [u64; 7] {
    let Dirent {
        qid, offset, ty, ..
    } = *entry;
    let (start, len) = (start as u64, len as u64);
    [
        qid.ty.into(),
        qid.version.into(),
        qid.path,
        offset,
        ty.into(),
        start,
        len,
    ]
}

/// Over the boundary, where a name may be anything: its refusal comes before the fit, also where it is
/// the first that does not fit, and none after that is looked at.
#[test]
fn a_name_is_checked_before_its_fit() {
    let names = b"abc\xff\0d";
    let table = |spans: &[[usize; 2]]| -> Vec<[u64; 7]> {
        let rows = spans.iter().map(|[start, len]| row(&OF_AB, *start, *len));
        rows.collect()
    };
    let pack = |room: usize, count: u32, rows: &[[u64; 7]]| {
        let mut out = vec![0xee; room];
        let (to, from) = (out.as_mut_ptr(), names.as_ptr());
        // SAFETY: pointers and counts are those of slices.
        let packed = unsafe {
            sheafsledge_sys::sheafsledge_pack(
                to,
                room,
                count,
                from,
                names.len(),
                rows.as_ptr(),
                rows.len(),
            )
        };
        let touched = out.iter().filter(|byte| **byte != 0xee).count();
        ((packed.refusal, packed.entries, packed.place), touched)
    };
    let long = [0, 70_000];
    for (room, count) in [(100, 100), (30, 100), (100, 30), (27, 27)] {
        // The second has room in the first case alone, and is refused in all.
        assert_eq!(pack(room, count, &table(&[[0, 3], [3, 1]])).0, (5, 0, 3));
        assert_eq!(pack(room, count, &table(&[[0, 3], [4, 1]])).0, (6, 0, 4));
        assert_eq!(pack(room, count, &table(&[[0, 3], [4, 3]])).0, (9, 0, 0));
        assert_eq!(pack(room, count, &table(&[[0, 3], long])).0, (9, 0, 0));
        assert_eq!(
            pack(room, count, &table(&[[0, 3], [usize::MAX, 2]])).0,
            (9, 0, 0)
        );
        for spans in [[[0, 3], [3, 1]], [[0, 3], [7, 0]]] {
            assert_eq!(pack(room, count, &table(&spans)).1, 0, "untouched");
        }
    }
    // The third is not looked at.
    let ((refusal, entries, place), touched) = pack(30, 100, &table(&[[0, 3], [0, 2], [3, 1]]));
    assert_eq!((refusal, entries, place), (0, 1, 27));
    assert!(touched <= 27);
    // With no room for the first, so is the second.
    assert_eq!(pack(26, 100, &table(&[[0, 3], [3, 1]])), ((0, 0, 0), 0));
    assert_eq!(pack(0, 0, &[]).0, (0, 0, 0));
}

/// A number takes the lowest bytes of its value, as flat values of records do.
#[test]
fn numbers_of_a_row_are_cut_to_their_fields() {
    let rows = [[0x180, 0x1_0000_0007, u64::MAX, 1, 0x304, 0, 1]];
    let (mut out, names) = ([0; 25], b"z");
    // SAFETY: pointers and counts are those of slices.
    let packed = unsafe {
        sheafsledge_sys::sheafsledge_pack(
            out.as_mut_ptr(),
            25,
            25,
            names.as_ptr(),
            1,
            rows.as_ptr(),
            1,
        )
    };
    assert_eq!((packed.refusal, packed.entries, packed.place), (0, 1, 25));
    let (entry, _) = Dirent::decode(&out, 0).expect("an entry");
    assert_eq!(
        (entry.qid.ty, entry.qid.version, entry.qid.path),
        (0x80, 7, u64::MAX)
    );
    assert_eq!((entry.offset, entry.ty), (1, 4));
}

/// The data of every Rreaddir of a recorded session, cut at every byte: the entries before the cut are
/// given, and the one that is cut is short.
#[test]
fn recorded_blocks_are_cut_at_every_byte() {
    let mut blocks = 0;
    for frame in stretch(include_bytes!("../../examples/diod-session.bin")) {
        let frame = frame.expect("a sound session");
        let Body::Reply(Ok(Rmessage::Readdir(reply))) = frame.body else {
            continue;
        };
        let whole: Vec<_> = reply
            .entries()
            .collect::<Result<_, _>>()
            .expect("sound entries");
        let ends = ends(&whole);
        assert_eq!(ends.last().copied().unwrap_or(0), reply.data.len());
        for cut in 0..=reply.data.len() {
            let mut entries = Dirents::new(&reply.data[..cut]);
            let held = ends.iter().filter(|end| **end <= cut).count();
            for entry in &whole[..held] {
                assert_eq!(entries.next(), Some(Ok(*entry)), "{cut}");
            }
            let at = if held == 0 { 0 } else { ends[held - 1] };
            assert_eq!(entries.position(), at, "{cut}");
            let last = (at < cut).then_some(Err(Refusal::Short));
            assert_eq!(entries.next(), last, "{cut}");
            assert_eq!(entries.next(), None, "{cut}");
        }
        let mut again = vec![0; reply.data.len()];
        let packed = Rreaddir::pack(&mut again, u32::MAX, whole.iter().copied()).expect("texts");
        assert_eq!((packed.entries, packed.left), (whole.len(), None));
        assert_eq!(packed.reply.data, reply.data);
        blocks += 1;
    }
    assert!(blocks > 0);
}

/// Over the boundary: past the end it is 1, at the end there is no entry, and the values stay.
#[test]
fn a_position_is_asked() {
    let asked = |position: usize| {
        let (mut values, from) = ([9; 7], AB.as_ptr());
        // SAFETY: pointer and count are those of a slice.
        let step =
            unsafe { sheafsledge_sys::sheafsledge_entry_at(from, AB.len(), position, &mut values) };
        (step.refusal, step.held, step.place, values)
    };
    assert_eq!(asked(0), (0, true, 26, [0, 1, 2, 3, 8, 24, 2]));
    assert_eq!(asked(26), (0, false, 26, [9; 7]));
    for past in [27, 1 << 40, usize::MAX] {
        assert_eq!(asked(past), (1, false, 0, [9; 7]));
    }
    for inside in 1..26 {
        assert_eq!(asked(inside).0, 1, "{inside}");
    }
}

/// From a table, in one call: the same bytes, the same refusals, and what is after them untouched.
#[test]
fn a_table_is_packed_at_once() {
    let rows = [
        [0, 1, 2, 3, 8, 0, 2],
        [0x80, u32::MAX.into(), 0x8000_0000_0000_0004, 255, 4, 2, 2],
    ];
    let (names, both) = ("abé".as_bytes(), [AB, E].concat());
    for count in 0..60 {
        let mut out = [0xee; 60];
        let (reply, entries) = Rreaddir::pack_table(&mut out, count, names, &rows).expect("texts");
        let fits = usize::from(count >= 26) + usize::from(count >= 52);
        assert_eq!(
            (entries, &*reply.data),
            (fits, &both[..26 * fits]),
            "{count}"
        );
        assert!(out[26 * fits..].iter().all(|byte| *byte == 0xee), "{count}");
    }
    let mut out = [0xee; 60];
    let refused = Rreaddir::pack_table(&mut out, 60, &names[..3], &rows);
    assert_eq!(refused, Err(Refusal::SpanOutside));
    assert_eq!(out, [0xee; 60]);
}
