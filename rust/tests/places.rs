//! Where the fields of listed frames stand: beside the library's own spans, and beside the bytes.

#[path = "../examples/viewer/marks.rs"]
mod marks;

use std::ops::Range;

use sheafsledge::*;
use sheafsledge_sys::{sheafsledge_read_rbody, sheafsledge_read_tbody, R_VALUES, T_VALUES};

const SESSION: &[u8] = include_bytes!("../../examples/diod-session.bin");

/// A frame of each message, laid out by hand: whole, and with a tail of two bytes.
const QUESTIONS: &str = include_str!("cases/questions");

/// Document 01's frames, and a Tversion whose string breaks at its byte 14.
const E: &[u8] = b"\x18\0\0\0\x6e\x03\0\x01\0\0\0\x02\0\0\0\x02\0\x01\0a\x02\0bc";
const K: &[u8] = b"\x0b\0\0\0\x6c\x01\0\x02\0\xaa\xbb";
const M: &[u8] = b"\x0f\0\0\0\x64\xff\xff\0\x20\0\0\x02\0\x61\0";

/// The frames of the table of widths, back to back.
fn of_each_type() -> Vec<u8> {
    let table = QUESTIONS
        .lines()
        .skip(2)
        .take_while(|line| !line.starts_with('#'));
    let frames = table.map(|line| {
        let (_, hex) = line.split_once('/').expect("bytes in hex");
        let byte = |at| u8::from_str_radix(&hex[at..at + 2], 16).expect("two digits");
        (0..hex.len()).step_by(2).map(byte).collect::<Vec<_>>()
    });
    frames.collect::<Vec<_>>().concat()
}

/// What the library answers for the body of a frame.
fn values(bytes: &[u8], frame: &Listed) -> Vec<u64> {
    let (from, count, at, ty) = (bytes.as_ptr(), frame.next, frame.at, frame.ty);
    let (mut request, mut reply) = ([0; T_VALUES], [0; R_VALUES]);
    // SAFETY: the count is at most the slice's, and the values are borrowed alone. The library is
    // proved to touch nothing else, and keeps neither.
    let read = unsafe {
        match ty % 2 {
            0 => sheafsledge_read_tbody(from, count, at, ty, &mut request),
            _ => sheafsledge_read_rbody(from, count, at, ty, &mut reply),
        }
    };
    assert_eq!((read.refusal, read.place), (0, frame.size - frame.tail));
    match ty % 2 {
        0 => request.to_vec(),
        _ => reply.to_vec(),
    }
}

/// The values that a field would have crossed by.
fn crossed(field: &FieldAt) -> Vec<u64> {
    let range = field.shown();
    let span = [range.start as u64, range.len() as u64];
    match field.value {
        Value::Number(number) => vec![number],
        Value::Text(_) | Value::Data(_) => span.to_vec(),
        Value::Names(names) => [&[names.len() as u64], &span[..]].concat(),
        Value::Qids(qids) => [&[qids.len() as u64], &span[..]].concat(),
        Value::Qid(qid) => vec![qid.ty.into(), qid.version.into(), qid.path],
        Value::Stat(_) | Value::UnixStat(_) => {
            field.parts().flat_map(|part| crossed(&part)).collect()
        }
    }
}

/// Whether a slice is that range of the bytes itself, and no copy.
fn is_there(bytes: &[u8], range: Range<usize>, slice: &[u8]) -> bool {
    std::ptr::eq(&bytes[range], slice)
}

#[track_caller]
fn stand_where_they_are_said_to(bytes: &[u8]) -> Vec<u8> {
    let mut types = Vec::new();
    for frame in stretch(bytes) {
        let frame = frame.expect("a whole frame");
        let values = values(bytes, &frame);
        let fields: Vec<FieldAt> = frame.fields().collect();
        let told: Vec<u64> = fields.iter().flat_map(crossed).collect();
        assert_eq!(told, values[..told.len()], "{frame:?}");
        assert!(values[told.len()..].iter().all(|value| *value == 0));

        let mut end = frame.header_range().end;
        assert_eq!(frame.header_range(), frame.position()..frame.at + 7);
        for field in &fields {
            assert_eq!(field.range.start, end, "{field:?}");
            end = field.range.end;
            if let Value::Data(data) = field.value {
                assert!(is_there(bytes, field.shown(), data.0));
            }
            for (range, text) in field.texts() {
                assert!(is_there(bytes, range, text.as_bytes()), "{field:?}");
            }
        }
        assert_eq!(frame.tail_range(), end..frame.next);
        types.push(frame.ty);
    }
    types.sort_unstable();
    types.dedup();
    types
}

#[test]
fn fields_of_all_types_stand_where_the_library_says() {
    let bytes = of_each_type();
    assert_eq!(stand_where_they_are_said_to(&bytes).len(), 57);
    stand_where_they_are_said_to(SESSION);
}

/// By hand: the walk is at 9 + 7, and its first name's letter 19 bytes later.
#[test]
fn a_walk_in_the_middle() {
    let bytes = [b"\x07\0\0\0\x6d\x01\0\x09\0\0\0\x6c\x01\0\x02\0", E, K].concat();
    let walk = stretch(&bytes).nth(2).expect("a frame").expect("whole");
    assert_eq!((walk.position(), walk.header_range()), (16, 16..23));
    let fields: Vec<_> = walk
        .fields()
        .map(|field| (field.name, field.range))
        .collect();
    let owed = [("fid", 23..27), ("newfid", 27..31), ("wnames", 31..40)];
    assert_eq!(fields, owed);
    let wnames = walk.fields().last().expect("a field");
    assert_eq!(wnames.shown(), 33..40);
    let texts: Vec<_> = wnames
        .texts()
        .map(|(at, name)| (at, name.as_str()))
        .collect();
    assert_eq!(texts, [(35..36, "a"), (38..40, "bc")]);
    assert_eq!(walk.tail_range(), 40..40);

    let flush = stretch(&bytes).nth(3).expect("a frame").expect("whole");
    let oldtag = flush.fields().next().expect("a field");
    assert_eq!((oldtag.range, oldtag.value), (47..49, Value::Number(2)));
    assert_eq!(flush.tail_range(), 49..51);
}

/// The place counts from the stretch's first byte, and a refused body has no fields.
#[test]
fn a_refusal_tells_of_a_byte_of_the_stretch() {
    let bytes = [K, M, E].concat();
    let refused = stretch(&bytes).nth(1).expect("a frame").expect("whole");
    let place = 11 + 14;
    assert_eq!(bytes[place], 0);
    assert_eq!(
        refused.body,
        Body::Request(Err(Refusal::ZeroByte { at: place }))
    );
    assert_eq!(refused.fields().count(), 0);
    assert_eq!(refused.tail_range(), 26..26);
}

/// A record that was listed is written again as the frame without its tail.
#[test]
fn listed_records_are_written() {
    for bytes in [&of_each_type()[..], SESSION] {
        for frame in stretch(bytes).flatten() {
            let Listed { at, tag, body, .. } = frame;
            let mut out = vec![0; frame.size];
            let len = match body {
                Body::Request(msg) => Tframe { tag, msg }.encode(&mut out),
                Body::Reply(msg) => Rframe {
                    tag,
                    msg: msg.expect("a message"),
                }
                .encode(&mut out),
            };
            let len = len.expect("it has room");
            assert_eq!(out[4..len], bytes[at + 4..frame.tail_range().start]);
        }
    }
}

/// The example's marks of the same walk, by hand.
#[test]
fn a_viewer_marks_the_names() {
    let bytes = [b"\x07\0\0\0\x6d\x01\0", E].concat();
    let shown = stretch(&bytes).map(|frame| marks::marked(&bytes, &frame.expect("whole")));
    let walk = "7 Twalk\n  ....n..............a..bc\n                     ^  ^^\n";
    assert_eq!(shown.collect::<String>(), walk);
}
