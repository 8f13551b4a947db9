//! Plans of large writes, and their Twrites. What is owed comes from the sentence of the requirements
//! and from arithmetic in 128 bits, and the fewest pieces from a search through all plans.

use sheafsledge::*;

type Piece = [u64; 2];

const LAST: u64 = u64::MAX;

/// Rows that no plan has.
const OLD: Piece = [0xee, 0xee];

/// No piece is empty, they run on from the first offset to the end, and each frame fits: the sentence
/// as it stands, with no number that can wrap.
fn owed(pieces: &[Piece], first: u64, len: u64, msize: u32) -> bool {
    let end = u128::from(first) + u128::from(len);
    if msize < 24 || end > u128::from(LAST) {
        return false;
    }
    let mut at = u128::from(first);
    for [offset, len] in pieces.iter().map(|piece| piece.map(u128::from)) {
        let fits = 23 + len <= u128::from(msize) && len <= 33_554_432;
        if len == 0 || offset != at || !fits {
            return false;
        }
        at += len;
    }
    at == end
}

/// A plan in a table with two rows more than it needs, which stay; then with none more.
#[track_caller]
fn planned(first: u64, len: u64, msize: u32, pieces: &[Piece]) {
    let mut table = vec![OLD; pieces.len() + 2];
    assert_eq!(plan_writes(&mut table, first, len, msize), Ok(pieces));
    assert_eq!(table[pieces.len()..], [OLD; 2]);
    let mut table = vec![OLD; pieces.len()];
    assert_eq!(plan_writes(&mut table, first, len, msize), Ok(pieces));
    assert!(owed(pieces, first, len, msize));
    assert!(accepts_plan(pieces, first, len, msize));
    if let Some(rows) = pieces.len().checked_sub(1) {
        refused(first, len, msize, rows, Refusal::TableFull);
    }
}

/// Refused, and the table is as it was.
#[track_caller]
fn refused(first: u64, len: u64, msize: u32, rows: usize, refusal: Refusal) {
    let mut table = vec![OLD; rows];
    assert_eq!(plan_writes(&mut table, first, len, msize), Err(refusal));
    assert_eq!(table, vec![OLD; rows]);
}

#[test]
fn plans_by_hand() {
    planned(5, 3, 25, &[[5, 2], [7, 1]]);
    planned(5, 4, 25, &[[5, 2], [7, 2]]);
    planned(5, 1, 25, &[[5, 1]]);
    planned(0, 3, 24, &[[0, 1], [1, 1], [2, 1]]);
    planned(0, 0, 24, &[]);
    planned(LAST, 0, u32::MAX, &[]);
    planned(1 << 63, 8169, 8192, &[[1 << 63, 8169]]);
    let next = (1 << 63) + 8169;
    planned(1 << 63, 8170, 8192, &[[1 << 63, 8169], [next, 1]]);
}

/// The pieces of so many bytes by arithmetic: full ones, and what is left.
fn full(first: u64, len: u64, data: u64) -> Vec<Piece> {
    let starts = (0..len).step_by(data as usize);
    starts.map(|at| [first + at, data.min(len - at)]).collect()
}

#[test]
fn lengths_around_each_border() {
    for (msize, data) in [
        (24, 1),
        (25, 2),
        (150, 127),
        (8_192, 8_169),
        (33_554_454, 33_554_431),
        (33_554_455, 33_554_432),
        (33_554_456, 33_554_432),
        (u32::MAX, 33_554_432),
    ] {
        for times in [1, 2, 3, 40] {
            for len in [times * data - 1, times * data, times * data + 1] {
                for first in [0, 1, LAST - len] {
                    planned(first, len, msize, &full(first, len, data));
                }
            }
        }
    }
}

#[test]
fn refusals_in_their_order() {
    for rows in [0, 1, 5] {
        for msize in 0..24 {
            for (first, len) in [(0, 0), (0, 1), (LAST, 1), (LAST, LAST), (0, LAST)] {
                refused(first, len, msize, rows, Refusal::MsizeTooSmall);
                assert!(!accepts_plan(&[], first, len, msize));
            }
        }
        for msize in [24, 33_554_455, 33_554_456, u32::MAX] {
            for (first, len) in [(LAST, 1), (1, LAST), (LAST, LAST), (LAST - 1, 2)] {
                refused(first, len, msize, rows, Refusal::EndTooFar);
                assert!(!accepts_plan(&[], first, len, msize));
            }
            // Up to 2^64 - 1 pieces, which no table holds: nothing wraps.
            refused(0, LAST, msize, rows, Refusal::TableFull);
            refused(1, LAST - 1, msize, rows, Refusal::TableFull);
            planned(LAST, 0, msize, &[]);
            planned(LAST - 1, 1, msize, &[[LAST - 1, 1]]);
            assert!(accepts_plan(&[], LAST, 0, msize));
            // Its end wraps to the offset where it starts.
            assert!(!accepts_plan(&[[0, LAST], [LAST, 1]], 0, 0, msize));
        }
    }
}

/// All ways to cut so many bytes into pieces that are not empty, each `take`n.
fn every_cut(at: u64, left: u64, pieces: &mut Vec<Piece>, take: &mut impl FnMut(&[Piece])) {
    if left == 0 {
        return take(pieces);
    }
    for len in 1..=left {
        pieces.push([at, len]);
        every_cut(at + len, left - len, pieces, take);
        pieces.pop();
    }
}

/// How many ways there are with pieces of at most so many bytes, by hand: of twelve bytes one with
/// pieces of 1, the 13th number of Fibonacci with 2, of the series that adds three with 3, and 2^11
/// with any.
#[test]
fn no_plan_of_all_has_fewer_pieces() {
    for (data, ways) in [
        (1, 1),
        (2, 233),
        (3, 927),
        (11, 2047),
        (12, 2048),
        (13, 2048),
    ] {
        for len in 0..=12 {
            let msize = 23 + data;
            let (mut accepted, mut fewest) = (0, usize::MAX);
            every_cut(9, len, &mut Vec::new(), &mut |pieces| {
                let fits = pieces.iter().all(|[_, len]| *len <= u64::from(data));
                assert_eq!(accepts_plan(pieces, 9, len, msize), fits, "{pieces:?}");
                if fits {
                    accepted += 1;
                    fewest = fewest.min(pieces.len());
                }
            });
            let mut table = [OLD; 12];
            let plan = plan_writes(&mut table, 9, len, msize).expect("twelve rows");
            assert_eq!(plan.len(), fewest, "{len} bytes, {data} to a frame");
            for rows in 0..fewest {
                refused(9, len, msize, rows, Refusal::TableFull);
            }
            if len == 12 {
                assert_eq!(accepted, ways);
            }
        }
    }
}

/// Every table of few rows with every offset and length near the write's, not only cuts of it.
fn every_table(rows: usize, pieces: &mut Vec<Piece>, take: &mut impl FnMut(&[Piece])) {
    take(pieces);
    if rows == 0 {
        return;
    }
    for offset in 4..=8 {
        for len in 0..=4 {
            pieces.push([offset, len]);
            every_table(rows - 1, pieces, take);
            pieces.pop();
        }
    }
}

#[test]
fn the_checker_is_exact_on_every_small_table() {
    // Of 0 to 3 bytes there are 1, 1, 2 and 4 cuts; with one byte to a frame 1 of each, with two 3 of
    // three bytes.
    for (msize, ways) in [
        (23, [0; 4]),
        (24, [1; 4]),
        (25, [1, 1, 2, 3]),
        (26, [1, 1, 2, 4]),
    ] {
        for (len, ways) in (0..).zip(ways) {
            let mut accepted = 0;
            every_table(3, &mut Vec::new(), &mut |pieces| {
                let yes = accepts_plan(pieces, 5, len, msize);
                assert_eq!(yes, owed(pieces, 5, len, msize), "{pieces:?}");
                accepted += u32::from(yes);
            });
            assert_eq!(accepted, ways, "{len} bytes, msize {msize}");
        }
    }
}

#[test]
fn lengths_that_wrap_are_no_plan() {
    let half = 1 << 63;
    for pieces in [
        &[[7, LAST]][..],
        &[[7, half], [7 + half, half]],
        &[[7, 1], [8, LAST], [7, 2]],
        &[[7, 1], [8, LAST - 7]],
        &[[LAST, 1], [0, 1]],
    ] {
        for len in [0, 1, 3, LAST - 7] {
            for msize in [24, u32::MAX] {
                assert!(!accepts_plan(pieces, 7, len, msize), "{pieces:?}");
                assert!(
                    !accepts_plan(pieces, pieces[0][0], len, msize),
                    "{pieces:?}"
                );
            }
        }
    }
}

#[test]
fn twrites_hold_the_bytes_in_order() {
    let bytes: Vec<u8> = (0..=255).cycle().take(1000).collect();
    for msize in [24, 25, 30, 123, 1022, 1023, 1024, u32::MAX] {
        let mut table = [OLD; 1000];
        let plan = plan_writes(&mut table, 77, 1000, msize).expect("a thousand rows");
        let writes = twrites(Fid(3), 77, &bytes, plan, msize).expect("it is accepted");
        assert_eq!(writes.len(), plan.len());
        let (mut sent, mut out) = (Vec::new(), [0; 1023]);
        for (write, [offset, len]) in writes.zip(plan) {
            assert_eq!((write.fid, write.offset), (Fid(3), *offset));
            assert_eq!(
                (write.offset, write.data.len() as u64),
                (77 + sent.len() as u64, *len)
            );
            sent.extend_from_slice(&write.data);
            let msg = Ok(Tmessage::Write(write));
            let written = Tframe { tag: Tag(1), msg }.encode(&mut out).expect("room");
            assert_eq!(written as u64, 23 + len);
            assert!(written as u64 <= u64::from(msize));
        }
        assert_eq!(sent, bytes);
    }
}

#[test]
fn twrites_take_any_accepted_plan_and_no_other() {
    let other = [[10, 1], [11, 3]];
    let cut = |bytes: &'static [u8], first| twrites(Fid(1), first, bytes, &other, 26);
    let parts: Vec<_> = cut(b"abcd", 10).expect("it is accepted").collect();
    assert_eq!((&*parts[0].data, &*parts[1].data), (&b"a"[..], &b"bcd"[..]));
    assert!(cut(b"abc", 10).is_none(), "a byte too few");
    assert!(cut(b"abcde", 10).is_none(), "a byte too many");
    assert!(cut(b"abcd", 11).is_none(), "another offset");
    assert!(
        twrites(Fid(1), 10, b"abcd", &other, 25).is_none(),
        "an msize too small"
    );
    assert_eq!(
        twrites(Fid(1), 10, b"", &[], 24).map(|writes| writes.len()),
        Some(0)
    );
    assert!(twrites(Fid(1), 10, b"", &[], 23).is_none());
}

/// The longest frame that there is: 33,554,455 bytes.
#[test]
fn a_full_piece_is_written_and_read() {
    let bytes = vec![7; 33_554_433];
    let mut table = [OLD; 2];
    let plan = plan_writes(&mut table, 0, 33_554_433, u32::MAX).expect("two rows");
    let writes: Vec<_> = twrites(Fid(1), 0, &bytes, plan, u32::MAX)
        .expect("it is accepted")
        .collect();
    assert_eq!((writes.len(), writes[1].offset), (2, 33_554_432));
    let mut out = vec![0; 33_554_455];
    let msg = Ok(Tmessage::Write(writes[0]));
    let frame = Tframe { tag: Tag(1), msg };
    assert_eq!(frame.encode(&mut out), Ok(33_554_455));
    let read = Tframe::decode(&out).expect("a header");
    let Ok(Tmessage::Write(write)) = read.frame.msg else {
        panic!("a Twrite");
    };
    assert_eq!(write.data.len(), 33_554_432);
}
