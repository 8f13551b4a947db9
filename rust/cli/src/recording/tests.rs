//! Recordings in pieces of any length beside the same bytes as one stretch.

use std::io::{self, ErrorKind, Read};

use sheafsledge::{stretch, Refusal};

use super::*;
use crate::dialect::{Plain, Unix, L};

const INSTRUMENT: &[u8] = include_bytes!("../../../../examples/instrument-session.bin");
const RECORDER: &[u8] = include_bytes!("../../../../examples/recorder-session.bin");

const SESSION: &[u8] = include_bytes!("../../../../examples/diod-session.bin");

/// The paper's 57 frames, each alone and with a tail, as `R` and `T` and their bytes in hex.
const FRAMES: [&str; 2] = [
    include_str!("../../../../crates/cases/stdin"),
    include_str!("../../../../crates/reply_cases/stdin"),
];

/// Bytes that come so many at a time, and may fail at a place.
struct Slow<'a> {
    bytes: &'a [u8],
    step: usize,
    /// How many bytes come before it fails.
    fails: Option<usize>,
    interrupted: bool,
    all: u64,
}

impl<'a> Slow<'a> {
    fn new(bytes: &'a [u8], step: usize) -> Self {
        let (fails, interrupted, all) = (None, false, bytes.len() as u64);
        Self {
            bytes,
            step,
            fails,
            interrupted,
            all,
        }
    }
}

impl Read for Slow<'_> {
    fn read(&mut self, room: &mut [u8]) -> io::Result<usize> {
        self.interrupted = !self.interrupted;
        if self.interrupted {
            return Err(ErrorKind::Interrupted.into());
        }
        let most = self.step.min(self.fails.unwrap_or(usize::MAX));
        if most == 0 {
            return Err(ErrorKind::PermissionDenied.into());
        }
        let most = most.min(room.len());
        let read = self.bytes.read(&mut room[..most])?;
        self.fails = self.fails.map(|left| left - read);
        Ok(read)
    }
}

impl Source for Slow<'_> {
    fn pass(&mut self, count: u64) -> io::Result<bool> {
        let count = count as usize;
        if self.fails.is_some_and(|left| left < count) {
            return Err(ErrorKind::PermissionDenied.into());
        }
        let there = self.bytes.len() >= count;
        self.bytes = &self.bytes[count.min(self.bytes.len())..];
        Ok(there)
    }

    fn end(&mut self) -> io::Result<u64> {
        Ok(self.all)
    }
}

fn all<D: Dialect>(
    source: impl Source,
    piece: usize,
) -> io::Result<(Vec<Row>, Vec<Broken>, Ended)> {
    let mut recording = Recording::<_, D>::new(source, piece);
    let (mut rows, mut broken) = (Vec::new(), Vec::new());
    loop {
        let ended = recording.go_on()?;
        assert_eq!(ended.is_some(), recording.rows().is_empty());
        rows.extend(recording.rows());
        broken.extend(recording.broken());
        if let Some(ended) = ended {
            return Ok((rows, broken, ended));
        }
    }
}

/// What the crate's iterator says of all the bytes at once.
fn owed<D: Dialect>(bytes: &[u8]) -> (Vec<Row>, Ended) {
    let mut rows = Vec::new();
    for frame in D::stretch(bytes) {
        match frame {
            Ok(frame) => rows.push(Row::of(0, &frame)),
            Err(Stop { at, refusal }) => {
                let at = at as u64;
                return (rows, Ended::Stopped { at, refusal });
            }
        }
    }
    (rows, Ended::Whole(bytes.len() as u64))
}

#[track_caller]
fn is_as_one_stretch<D: Dialect>(bytes: &[u8], piece: usize, step: usize) {
    let (rows, broken, ended) = all::<D>(Slow::new(bytes, step), piece).expect("it can be read");
    let told = (rows, ended);
    assert_eq!(told, owed::<D>(bytes), "pieces of {piece}, steps of {step}");
    let broken = broken.iter().map(shown);
    let owed = told.0.iter().filter_map(|row| breaks(row, bytes));
    assert!(broken.eq(owed), "pieces of {piece}, steps of {step}");
}

/// A frame, the place, the bytes before it and from it on, and whether the frame has more of both.
type Shown = (Row, u64, [Vec<u8>; 2], [bool; 2]);

fn shown(broken: &Broken) -> Shown {
    let after = [&[broken.byte()], broken.after()].concat();
    let sides = [broken.goes_back, broken.goes_on];
    (
        broken.row,
        broken.place,
        [broken.before().to_vec(), after],
        sides,
    )
}

/// The same of a row, from all the bytes.
fn breaks(row: &Row, bytes: &[u8]) -> Option<Shown> {
    let place = row.refusal?.at()?;
    let (start, end) = (row.at as usize, row.at as usize + row.size as usize);
    let (from, to) = (start.max(place - 8), end.min(place + 9));
    let sides = [bytes[from..place].to_vec(), bytes[place..to].to_vec()];
    Some((*row, place as u64, sides, [from > start, to < end]))
}

/// Xorshift.
struct Draws(u64);

impl Draws {
    fn below(&mut self, bound: usize) -> usize {
        self.0 ^= self.0 << 13;
        self.0 ^= self.0 >> 7;
        self.0 ^= self.0 << 17;
        (self.0 >> 16) as usize % bound
    }
}

/// The frames of the paper, of both directions.
fn frames() -> Vec<Vec<u8>> {
    let lines = FRAMES.iter().flat_map(|text| text.lines());
    let hex = lines.filter_map(|line| line.strip_prefix("R ").or(line.strip_prefix("T ")));
    let byte = |pair: &[u8]| u8::from_str_radix(std::str::from_utf8(pair).ok()?, 16).ok();
    let bytes = |hex: &str| hex.as_bytes().chunks(2).map(byte).collect::<Option<_>>();
    let frames: Vec<Vec<u8>> = hex.filter_map(bytes).collect();
    let whole = |frame: &Vec<u8>| frame.len() > 6 && owed::<L>(frame).0.len() == 1;
    frames.into_iter().filter(whole).collect()
}

/// Frames back to back: as they are, with a tail, cut short, of any type, with any byte flipped, or
/// under any size.
fn drawn(frames: &[Vec<u8>], draws: &mut Draws) -> Vec<u8> {
    let mut bytes = Vec::new();
    for _ in 0..draws.below(40) {
        let mut frame = frames[draws.below(frames.len())].clone();
        match draws.below(12) {
            0 => frame.extend(vec![0xaa; draws.below(300)]),
            1 => frame.truncate(7 + draws.below(frame.len() - 6)),
            2 => frame[4] = draws.below(256) as u8,
            3 => {
                let at = 4 + draws.below(frame.len() - 4);
                frame[at] ^= 1 << draws.below(8);
            }
            _ => {}
        }
        let size = match draws.below(60) {
            0 => draws.below(2 * frame.len()) as u32,
            _ => frame.len() as u32,
        };
        frame[..4].copy_from_slice(&size.to_le_bytes());
        bytes.extend(frame);
    }
    bytes.truncate(bytes.len() - draws.below(8).min(bytes.len()));
    bytes
}

#[test]
fn a_session_of_9p2000_cut_anywhere_is_listed_as_one_stretch() {
    for (piece, step) in [(7, 5), (19, 3), (64, 50), (1000, 1000)] {
        for cut in 0..=INSTRUMENT.len() {
            is_as_one_stretch::<Plain>(&INSTRUMENT[..cut], piece, step);
        }
        for cut in 0..=RECORDER.len() {
            is_as_one_stretch::<Unix>(&RECORDER[..cut], piece, step);
        }
    }
    // The Rstat's name breaks, in pieces that are shorter than the frame.
    let mut bytes = INSTRUMENT.to_vec();
    for (place, byte) in [(250 + 52, 0xff), (250 + 52, 0), (250 + 7, 0), (250 + 9, 0)] {
        let was = std::mem::replace(&mut bytes[place], byte);
        for piece in 7..120 {
            is_as_one_stretch::<Plain>(&bytes, piece, 11);
        }
        bytes[place] = was;
    }
}

#[test]
fn a_session_cut_anywhere_is_listed_as_one_stretch() {
    let cuts = (0..200).chain((200..SESSION.len()).step_by(97));
    for cut in cuts.chain([SESSION.len()]) {
        for (piece, step) in [(7, 3), (64, 1 << 20), (1000, 999), (1 << 20, 1 << 20)] {
            is_as_one_stretch::<L>(&SESSION[..cut], piece, step);
        }
    }
}

#[test]
fn pieces_end_at_every_byte() {
    let start = &SESSION[..1500];
    for piece in 0..300 {
        is_as_one_stretch::<L>(start, piece, 1 << 20);
    }
    for step in [1, 2, 3, 5, 8] {
        is_as_one_stretch::<L>(SESSION, 8, step);
        is_as_one_stretch::<L>(SESSION, 64, step);
    }
}

#[test]
fn drawn_stretches_are_listed_as_one() {
    let (frames, draws) = (frames(), &mut Draws(1));
    assert!(frames.len() >= 114, "{} frames", frames.len());
    let mut broken = 0;
    for _ in 0..200 {
        let bytes = drawn(&frames, draws);
        broken += owed::<L>(&bytes)
            .0
            .iter()
            .filter(|row| row.breaks())
            .count();
        for piece in [7, 8, 11, 23, 64, 500, 1 << 20] {
            is_as_one_stretch::<L>(&bytes, piece, 1 + draws.below(400));
        }
    }
    assert!(broken > 20, "{broken} broken strings");
}

/// Where a frame's header, its fields and its tail stand.
fn ranges(start: u64, frame: &sheafsledge::Listed) -> Vec<(u64, usize)> {
    let fields = frame.fields().map(|field| field.range);
    let front = [frame.header_range()].into_iter().chain(fields);
    let all = front.chain([frame.tail_range()]);
    all.map(|range| (start + range.start as u64, range.len()))
        .collect()
}

/// What is read once more of a row stands where it does in one stretch.
#[test]
fn fields_stand_where_those_of_one_stretch_do() {
    let (frames, draws) = (frames(), &mut Draws(3));
    for _ in 0..60 {
        let bytes = drawn(&frames, draws);
        let owed: Vec<_> = stretch(&bytes)
            .flatten()
            .flat_map(|frame| ranges(0, &frame))
            .collect();
        for piece in [7, 11, 23, 64, 1 << 20] {
            let source = Slow::new(&bytes, 1 + draws.below(400));
            let (mut recording, mut told) = (Recording::<_, L>::new(source, piece), Vec::new());
            while recording.go_on().expect("it can be read").is_none() {
                let rows = recording.rows().iter();
                told.extend(rows.flat_map(|row| ranges(row.at, &recording.frame(row))));
            }
            assert_eq!(told, owed, "pieces of {piece}");
            assert_eq!(recording.end().expect("its length"), bytes.len() as u64);
        }
    }
}

/// In a long frame the bytes after the place may be none of those that its fields need.
#[test]
fn a_string_may_break_at_every_byte_of_a_long_frame() {
    let front = b"\x1f\0\0\0\x64\xff\xff\0\x20\0\0\x09\0ninebytes and a tail";
    for place in 13..22 {
        for byte in [0, 0xff] {
            let mut frame = front[..31].to_vec();
            frame[place] = byte;
            let bytes = [&frame[..], b"\x07\0\0\0\x6d\x01\0", &frame].concat();
            for piece in [7, 13, 21, 22, 23, 24, 30, 31, 32, 64] {
                is_as_one_stretch::<L>(&bytes, piece, 5);
                is_as_one_stretch::<L>(&bytes[..bytes.len() - 1], piece, 5);
            }
        }
    }
}

/// More frames than one call tells of.
#[test]
fn many_frames_of_one_piece_are_told_of_in_their_order() {
    let bytes = b"\x07\0\0\0\x6d\x01\0".repeat(3 * ROWS + 1);
    is_as_one_stretch::<L>(&bytes, 1 << 20, 1 << 20);
    is_as_one_stretch::<L>(&bytes[..7 * ROWS], 7 * ROWS, 1 << 20);
}

/// What a long frame is judged by: its first bytes answer as all of it does, unless they are too
/// few.
#[test]
fn an_answer_other_than_short_stands() {
    let (frames, draws) = (frames(), &mut Draws(2));
    for _ in 0..100 {
        for row in owed::<L>(&drawn(&frames, draws)).0 {
            assert!(row.tail <= row.size);
        }
        let bytes = drawn(&frames, draws);
        for frame in stretch(&bytes).flatten() {
            let bytes = &bytes[frame.at..frame.next];
            for end in 7..=bytes.len() {
                let seen = L::front(&bytes[..end], bytes.len());
                let short = seen.body.refusal() == Some(Refusal::Short);
                if !short || end == bytes.len() {
                    assert_eq!(Row::of(frame.at as u64, &seen), Row::of(0, &frame));
                }
            }
        }
    }
}

#[test]
fn a_source_that_fails_is_told_of_at_any_byte() {
    for fails in 0..150 {
        for piece in [7, 64, 1 << 20] {
            let mut source = Slow::new(SESSION, 31);
            source.fails = Some(fails);
            let error = all::<L>(source, piece).expect_err("it fails");
            assert_eq!(error.kind(), ErrorKind::PermissionDenied);
        }
    }
}

/// Nothing more is asked of a source, which may be a pipe that gives nothing for a long time.
#[test]
fn a_size_of_no_frame_stops_it_at_once() {
    let mut bytes = SESSION[..42].to_vec();
    bytes.extend([6, 0, 0, 0]);
    for piece in [7, 64, 1 << 20] {
        let mut source = Slow::new(&bytes, 5);
        source.fails = Some(bytes.len());
        let (rows, _, ended) = all::<L>(source, piece).expect("it is not read on");
        let (at, refusal) = (42, Refusal::StretchSize);
        assert_eq!((rows.len(), ended), (2, Ended::Stopped { at, refusal }));
    }
}

/// A front, and zeros after it up to a length. What is read of it is counted.
struct Sparse<'a> {
    front: &'a [u8],
    zeros: u64,
    read: &'a mut u64,
}

impl Read for Sparse<'_> {
    fn read(&mut self, room: &mut [u8]) -> io::Result<usize> {
        let zeros = room.len().min(self.zeros as usize);
        let read = match self.front.is_empty() {
            false => self.front.read(room)?,
            true => {
                room[..zeros].fill(0);
                self.zeros -= zeros as u64;
                zeros
            }
        };
        *self.read += read as u64;
        Ok(read)
    }
}

impl Source for Sparse<'_> {
    fn pass(&mut self, count: u64) -> io::Result<bool> {
        let there = self.zeros >= count;
        self.zeros -= count.min(self.zeros);
        Ok(there)
    }

    fn end(&mut self) -> io::Result<u64> {
        unreachable!("nobody asks how long it is")
    }
}

/// The answer and the tail of one frame of that size, type and start of its body, or the stop; and how
/// much of it was read.
fn sparse(size: u32, ty: u8, body: &[u8], missing: u64) -> (String, u64) {
    let front = [&size.to_le_bytes()[..], &[ty, 1, 0], body].concat();
    let zeros = u64::from(size) - front.len() as u64 - missing;
    let mut read = 0;
    let source = Sparse {
        front: &front,
        zeros,
        read: &mut read,
    };
    let (rows, _, ended) = all::<L>(source, PIECE).expect("it can be read");
    let told = match (rows.as_slice(), ended) {
        ([row], Ended::Whole(_)) => format!("{} {} {}", row.size, row.answer(), row.tail),
        ([], Ended::Stopped { at, refusal }) => format!("stop {at} {}", refusal.number()),
        other => format!("{other:?}"),
    };
    (told, read)
}

#[test]
fn of_a_long_frame_only_its_fields_are_read() {
    const MOST: u32 = 33_554_432;
    let (piece, fields) = (PIECE as u64, FIELDS as u64);
    let write = |count: u32| [&[0; 12][..], &count.to_le_bytes()].concat();
    let read = MOST.to_le_bytes().to_vec();
    let walk = |count: u16| [&[0; 8][..], &count.to_le_bytes()].concat();
    for (size, ty, body, told, held) in [
        (3_000_000_000, 118, write(5), "0 2999999972", piece),
        (u32::MAX, 118, write(MOST), "0 4261412840", fields),
        (100_000_000, 118, write(MOST + 1), "4 0", piece),
        (u32::MAX, 106, vec![], "3 0", piece),
        (u32::MAX, 109, vec![], "0 4294967288", piece),
        (MOST + 23, 118, write(MOST), "0 0", fields),
        (MOST + 22, 118, write(MOST), "1 0", fields - 1),
        (5_000_000, 117, read, "1 0", 5_000_000),
        // The names are empty.
        (u32::MAX, 110, walk(16), "0 4294967246", piece),
        (u32::MAX, 110, walk(17), "17 0", piece),
        (u32::MAX, 110, walk(65_535), "17 0", piece),
    ] {
        let owed = (format!("{size} {told}"), held);
        assert_eq!(sparse(size, ty, &body, 0), owed);
        let (told, _) = sparse(size, ty, &body, 1);
        assert_eq!(told, "stop 0 12", "the last byte is missing");
    }
}
