//! Stretches of frames, and pairs.

use sheafsledge::*;

const SESSION: &[u8] = include_bytes!("../../examples/diod-session.bin");

/// What the lister has to print of the session ends this file, in one line, a bar for each line
/// end. The seller's crate made it (`compare/oracle listing`).
const ANSWERS: &str = include_str!("../../crates/reply_cases/stdout");

/// Document 01's requests.
const REQUESTS: [u8; 28] = [
    8, 12, 14, 16, 18, 20, 22, 24, 26, 30, 32, 40, 50, 52, 54, 70, 72, 74, 76, 100, 102, 104, 108,
    110, 116, 118, 120, 122,
];

fn line(frame: Result<Listed, Stop>) -> String {
    let frame = match frame {
        Ok(frame) => frame,
        Err(Stop { at, refusal }) => return format!("stop {at} {}", refusal.number()),
    };
    let refusal = match frame.body {
        Body::Request(body) => body.err(),
        Body::Reply(body) => body.err(),
    };
    let answer = match refusal {
        Some(refusal) => format!("{} -", refusal.number()),
        None => format!("0 {}", frame.tail),
    };
    let Listed {
        at, size, ty, tag, ..
    } = frame;
    format!("{at} {size} {ty} {tag} {answer}")
}

#[test]
fn the_papers_stretch_is_listed_as_it_says() {
    let b = b"\x09\0\0\0\x6c\x01\0\x02\0";
    let c = b"\x07\0\0\0\x6d\x01\0";
    let k = b"\x0b\0\0\0\x6c\x01\0\x02\0\xaa\xbb";
    let j = b"\x07\0\0\0\x6a\x05\0";
    let mut bytes = [&b[..], c, k, j].concat();
    let told = [
        "0 9 108 1 0 0",
        "9 7 109 1 0 0",
        "16 11 108 1 0 2",
        "27 7 106 5 3 -",
    ];
    assert_eq!(stretch(&bytes).map(line).collect::<Vec<_>>(), told);
    for (more, stop) in [
        (&b"\x09\0\0"[..], "stop 34 12"),
        (&[6, 0, 0, 0], "stop 34 13"),
    ] {
        bytes.truncate(34);
        bytes.extend(more);
        let lines: Vec<_> = stretch(&bytes).map(line).collect();
        assert_eq!(lines[..4], told);
        assert_eq!(lines[4..], [stop]);
    }
    assert_eq!(stretch(b"").next(), None);
}

#[test]
fn a_real_session_is_listed_as_the_seller_lists_it() {
    let listing = ANSWERS.lines().last().expect("the session's listing");
    let told: Vec<_> = listing.trim_end_matches('|').split('|').collect();
    let lines: Vec<_> = stretch(SESSION).map(line).collect();
    assert_eq!(lines.len(), 224);
    assert_eq!(lines, told[1..told.len() - 1]);
}

/// What a frame holds is what it holds alone, and the next one starts where it ends.
#[test]
fn frames_are_read_as_they_are_alone() {
    let mut end = 0;
    for frame in stretch(SESSION) {
        let frame = frame.expect("a whole frame");
        assert_eq!((frame.at, frame.next), (end, end + frame.size));
        end = frame.next;
        let bytes = &SESSION[frame.at..frame.next];
        match frame.body {
            Body::Request(body) => {
                assert_eq!(body, Tframe::decode(bytes).expect("a header").frame.msg);
            }
            Body::Reply(body) => {
                assert_eq!(body, Rframe::decode(bytes).map(|read| read.frame.msg));
            }
        }
    }
    assert_eq!(end, SESSION.len());
}

#[test]
fn a_reply_answers_the_request_before_it() {
    let marks: Vec<_> = stretch(SESSION)
        .map(|frame| frame.unwrap().mark())
        .collect();
    let failed = marks.iter().filter(|mark| mark.ty == 7).count();
    assert!(failed > 0, "an Rlerror is among them");
    for pair in marks.chunks(2) {
        assert!(answers(pair[0], pair[1]), "{pair:?}");
    }
}

#[test]
fn the_next_number_and_7_with_the_same_tag_answer() {
    for request in 0..=255 {
        for reply in 0..=255 {
            let mark = |ty, tag| Mark { ty, tag: Tag(tag) };
            let pair = REQUESTS.contains(&request) && [request + 1, 7].contains(&reply);
            assert_eq!(answers(mark(request, 9), mark(reply, 9)), pair);
            assert!(!answers(mark(request, 9), mark(reply, 265)));
        }
    }
}
