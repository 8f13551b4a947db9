//! Capture files. What is owed is read and written here by the sentences of the request, byte by byte,
//! and never by the library.

use sheafsledge::pcap::{self, HEADER, RECORD};
use sheafsledge::{Refusal, Stop};

const SESSION: &[u8] = include_bytes!("../../examples/diod-session.bin");

/// A frame of so many bytes.
fn frame(size: u32, ty: u8, tag: u16) -> Vec<u8> {
    let mut frame = size.to_le_bytes().to_vec();
    frame.push(ty);
    frame.extend(tag.to_le_bytes());
    frame.resize(size as usize, 0xa5);
    frame
}

/// A file, written in one order or the other.
struct Writer {
    big: bool,
    bytes: Vec<u8>,
}

impl Writer {
    fn new(big: bool) -> Self {
        let bytes = Vec::new();
        let mut file = Self { big, bytes };
        file.four(0xa1b2_c3d4);
        file.two(2);
        file.two(4);
        file.four(0);
        file.four(0);
        file.four(65535);
        file.four(147);
        file
    }

    fn two(&mut self, n: u16) {
        self.bytes.extend(match self.big {
            true => n.to_be_bytes(),
            false => n.to_le_bytes(),
        });
    }

    fn four(&mut self, n: u32) {
        self.bytes.extend(match self.big {
            true => n.to_be_bytes(),
            false => n.to_le_bytes(),
        });
    }

    fn record(&mut self, [seconds, micros]: [u32; 2], frame: &[u8]) {
        self.four(seconds);
        self.four(micros);
        self.four(frame.len() as u32);
        self.four(frame.len() as u32);
        self.bytes.extend(frame);
    }

    fn of(big: bool, frames: &[([u32; 2], Vec<u8>)]) -> Vec<u8> {
        let mut file = Self::new(big);
        for (time, frame) in frames {
            file.record(*time, frame);
        }
        file.bytes
    }
}

type Held = (Vec<u8>, Vec<[u32; 2]>);

/// The file's frames and times by the request, or where it is broken.
fn owed(file: &[u8]) -> Result<Held, usize> {
    let big = match file.get(..4) {
        Some([0xd4, 0xc3, 0xb2, 0xa1]) => false,
        Some([0xa1, 0xb2, 0xc3, 0xd4]) => true,
        _ => return Err(0),
    };
    let version: &[u8] = if big { &[0, 2, 0, 4] } else { &[2, 0, 4, 0] };
    let link: &[u8] = if big {
        &[0, 0, 0, 147]
    } else {
        &[147, 0, 0, 0]
    };
    if file.get(4..8) != Some(version) || file.get(20..24) != Some(link) {
        return Err(0);
    }
    let (mut at, mut frames, mut times) = (24, Vec::new(), Vec::new());
    while at < file.len() {
        let Some(head) = file.get(at..at + 16) else {
            return Err(at);
        };
        let number = |i: usize| {
            let four = head[i..i + 4].iter().map(|byte| u32::from(*byte));
            let join = |n: u32, byte: u32| n << 8 | byte;
            if big {
                four.fold(0, join)
            } else {
                four.rev().fold(0, join)
            }
        };
        let (captured, original) = (number(8), number(12));
        let Some(frame) = file.get(at + 16..at + 16 + captured as usize) else {
            return Err(at);
        };
        let fits = (7..=65535).contains(&captured) && captured == original;
        if !fits || frame[..4] != captured.to_le_bytes() {
            return Err(at);
        }
        frames.extend(frame);
        times.push([number(0), number(4)]);
        at += 16 + captured as usize;
    }
    Ok((frames, times))
}

const FILL: u8 = 0x5c;
const ROW: [u32; 2] = [77, 78];

/// Into a room and a table that are longer: what is after stays. Refused, all does.
fn imported(file: &[u8], room: usize, rows: usize) -> Result<Held, Stop> {
    let (mut out, mut times) = (vec![FILL; room], vec![ROW; rows]);
    let told = pcap::import(&mut out, &mut times, file);
    let told = told.map(|import| (import.stretch.to_vec(), import.times.to_vec()));
    let (bytes, filled) = match &told {
        Ok((stretch, times)) => (stretch.len(), times.len()),
        Err(_) => (0, 0),
    };
    assert!(out[bytes..].iter().all(|byte| *byte == FILL));
    assert!(times[filled..].iter().all(|row| *row == ROW));
    told
}

fn stop(refusal: Refusal, at: usize) -> Stop {
    Stop { at, refusal }
}

#[track_caller]
fn imports_as_owed(file: &[u8]) {
    let told = imported(file, file.len() + 9, file.len() / 23 + 3);
    let owed = owed(file).map_err(|at| stop(Refusal::Capture, at));
    assert_eq!(told, owed, "{file:?}");
}

fn small(big: bool) -> Vec<u8> {
    let first = ([1_700_000_001, 999_999], frame(7, 108, 1));
    let second = ([3, 0xfff0_0001], frame(11, 109, 0x0102));
    Writer::of(big, &[first, second])
}

#[test]
fn both_orders_are_taken() {
    for big in [false, true] {
        let stretch = [frame(7, 108, 1), frame(11, 109, 0x0102)].concat();
        let times = vec![[1_700_000_001, 999_999], [3, 0xfff0_0001]];
        assert_eq!(imported(&small(big), 99, 9), Ok((stretch, times)));
        assert_eq!(
            imported(&Writer::new(big).bytes, 0, 0),
            Ok((vec![], vec![]))
        );
    }
}

#[test]
fn each_cut_and_each_changed_byte_is_answered_as_the_request_says() {
    for big in [false, true] {
        let file = small(big);
        for cut in 0..=file.len() {
            imports_as_owed(&file[..cut]);
        }
        let (mut taken, mut refused) = (0, 0);
        for i in 0..file.len() {
            for byte in 0..=255 {
                let mut file = file.clone();
                file[i] = byte;
                imports_as_owed(&file);
                match owed(&file) {
                    Ok(_) => taken += 1,
                    Err(_) => refused += 1,
                }
            }
        }
        // Anything in zone, accuracy and snapshot length (12 bytes), in the times (16) and after the
        // sizes of the frames (10); each other byte as it is.
        assert_eq!(taken, (12 + 16 + 10) * 256 + (file.len() - 38));
        assert_eq!(taken + refused, file.len() * 256);
    }
}

#[test]
fn bytes_after_the_last_record_are_a_cut_record() {
    for big in [false, true] {
        for more in 1..=40 {
            let mut file = small(big);
            let at = file.len();
            file.resize(at + more, 0);
            let owed = Err(stop(Refusal::Capture, at));
            assert_eq!(imported(&file, 99, 9), owed);
        }
    }
}

#[test]
fn lengths_are_from_seven_to_65535_and_the_same() {
    for big in [false, true] {
        for (captured, original, size) in [
            (7, 7, 7),
            (65535, 65535, 65535),
            (6, 6, 6),
            (0, 0, 0),
            (65536, 65536, 65536),
            (8, 9, 8),
            (9, 8, 9),
            (8, 8, 9),
            (8, 8, 0x0800_0000),
            (0x0700, 0x0700, 0x0700),
            (0x0700, 0x0700, 0x0007_0000),
            (u32::MAX, u32::MAX, 7),
        ] {
            let mut file = Writer::new(big);
            file.four(1);
            file.four(2);
            file.four(captured);
            file.four(original);
            let mut frame = frame(captured.clamp(7, 65536), 100, 0);
            frame[..4].copy_from_slice(&u32::to_le_bytes(size));
            file.bytes
                .extend(&frame[..frame.len().min(captured as usize)]);
            imports_as_owed(&file.bytes);
            let taken = imported(&file.bytes, 70_000, 1).is_ok();
            let owed = captured == original && captured == size;
            assert_eq!(taken, owed && (7..=65535).contains(&captured), "{captured}");
        }
    }
}

#[test]
fn the_frames_size_is_little_endian_in_either_order() {
    // 0x01010101 would do in both: but no frame is so long. 7 in the file's order is not 7.
    let mut file = Writer::new(true);
    let mut frame = frame(7, 108, 1);
    frame[..4].copy_from_slice(&7_u32.to_be_bytes());
    file.record([0, 0], &frame);
    let owed = Err(stop(Refusal::Capture, 24));
    assert_eq!(imported(&file.bytes, 99, 9), owed);
}

#[test]
fn the_header_is_looked_at_whole() {
    for (at, bytes) in [
        (0, [0x4d, 0x3c, 0xb2, 0xa1]),
        (0, [0xa1, 0xb2, 0x3c, 0x4d]),
        (20, [147, 0, 1, 0]),
        (20, [147, 0, 0, 4]),
        (20, [147, 1, 0, 0]),
        (4, [2, 0, 3, 0]),
        (4, [0, 2, 0, 4]),
    ] {
        let mut file = small(false);
        file[at..at + 4].copy_from_slice(&bytes);
        let owed = Err(stop(Refusal::Capture, 0));
        assert_eq!(imported(&file, 99, 9), owed, "{at} {bytes:?}");
    }
}

#[test]
fn import_refuses_with_25_then_24_then_11() {
    for big in [false, true] {
        let file = small(big);
        assert!(imported(&file, 18, 2).is_ok());
        let owed = Err(stop(Refusal::TableFull, 0));
        for room in 0..20 {
            assert_eq!(imported(&file, room, 1), owed);
            assert_eq!(imported(&file, room, 0), owed);
        }
        let owed = Err(stop(Refusal::NoRoom, 0));
        for room in 0..18 {
            assert_eq!(imported(&file, room, 2), owed);
        }
        let owed = Err(stop(Refusal::Capture, 47));
        assert_eq!(imported(&file[..file.len() - 1], 0, 0), owed);
    }
}

/// Into room that is longer: what is after stays, and refused, all does.
fn exported(stretch: &[u8], times: &[[u32; 2]], room: usize) -> Result<Vec<u8>, Stop> {
    let mut out = vec![FILL; room];
    let told = pcap::export(&mut out, stretch, times);
    let written = told.unwrap_or(0);
    assert!(out[written..].iter().all(|byte| *byte == FILL));
    told.map(|len| out[..len].to_vec())
}

#[test]
fn export_writes_little_endian() {
    let stretch = [frame(7, 108, 1), frame(11, 109, 0x0102)].concat();
    let times = [[1_700_000_001, 999_999], [3, 0xfff0_0001], [5, 6]];
    let file = small(false);
    for rows in 2..=3 {
        let told = exported(&stretch, &times[..rows], file.len() + 5);
        assert_eq!(told.as_ref(), Ok(&file));
    }
    let empty = Writer::new(false).bytes;
    assert_eq!(exported(&[], &[], 24), Ok(empty));
}

#[test]
fn export_refuses_with_12_or_13_then_25_then_24_then_11() {
    let long = frame(65536, 117, 2);
    let mut stretch = [frame(7, 108, 1), long, frame(65535, 116, 3)].concat();
    let at = stretch.len();
    stretch.extend([7, 0, 0]);
    let refused = |stretch: &[u8]| exported(stretch, &[], 0).unwrap_err();
    assert_eq!(refused(&stretch), stop(Refusal::StretchCut, at));
    stretch.push(0);
    assert_eq!(refused(&stretch), stop(Refusal::StretchCut, at));
    stretch[at] = 6;
    assert_eq!(refused(&stretch), stop(Refusal::StretchSize, at));
    assert_eq!(refused(&stretch[..at]), stop(Refusal::Capture, 7));
    let fits = [frame(7, 108, 1), frame(65535, 116, 3)].concat();
    assert_eq!(refused(&fits), stop(Refusal::TableFull, 0));
    let len = HEADER + fits.len() + 2 * RECORD;
    for (rows, room, owed) in [
        (1, len, Err(Refusal::TableFull)),
        (1, 0, Err(Refusal::TableFull)),
        (2, len - 1, Err(Refusal::NoRoom)),
        (2, 23, Err(Refusal::NoRoom)),
        (2, 0, Err(Refusal::NoRoom)),
        (2, len, Ok(len)),
        (9, len, Ok(len)),
    ] {
        let told = exported(&fits, &vec![[1, 2]; rows], room);
        let told = told.map(|file| file.len()).map_err(|stop| stop.refusal);
        assert_eq!(told, owed, "{rows} {room}");
    }
}

/// Numbers that look like any.
struct Dice(u64);

impl Dice {
    fn below(&mut self, n: u32) -> u32 {
        self.0 = self.0.wrapping_mul(6364136223846793005).wrapping_add(1);
        ((self.0 >> 33) % u64::from(n)) as u32
    }
}

#[test]
fn there_and_back_again_both_ways() {
    let mut dice = Dice(29);
    for _ in 0..300 {
        let count = dice.below(6);
        let frames: Vec<([u32; 2], Vec<u8>)> = (0..count)
            .map(|_| {
                let size = 7 + match dice.below(4) {
                    0 => dice.below(65529),
                    _ => dice.below(90),
                };
                let time = [dice.below(u32::MAX), dice.below(u32::MAX)];
                (
                    time,
                    frame(size, dice.below(256) as u8, dice.below(65536) as u16),
                )
            })
            .collect();
        let stretch: Vec<u8> = frames.iter().flat_map(|(_, frame)| frame.clone()).collect();
        let times: Vec<[u32; 2]> = frames.iter().map(|(time, _)| *time).collect();
        let file = Writer::of(false, &frames);
        assert_eq!(exported(&stretch, &times, file.len()), Ok(file.clone()));
        for big in [false, true] {
            let twin = Writer::of(big, &frames);
            let told = imported(&twin, stretch.len(), times.len());
            assert_eq!(told, Ok((stretch.clone(), times.clone())));
        }
    }
}

#[test]
fn a_session_is_exported_and_its_records_are_its_frames() {
    let frames: Vec<_> = sheafsledge::stretch(SESSION).map(Result::unwrap).collect();
    let time = |i: usize| [i as u32, 5 * i as u32];
    let times: Vec<[u32; 2]> = (0..frames.len()).map(time).collect();
    let mut file = vec![0; HEADER + SESSION.len() + RECORD * frames.len()];
    assert_eq!(pcap::export(&mut file, SESSION, &times), Ok(file.len()));
    assert_eq!(owed(&file), Ok((SESSION.to_vec(), times)));
    let (mut out, mut rows) = (vec![0; file.len()], vec![[0; 2]; frames.len()]);
    let import = pcap::import(&mut out, &mut rows, &file).expect("it was exported");
    let records: Vec<_> = import.records().map(Result::unwrap).collect();
    assert_eq!(records.len(), frames.len());
    for (i, (record, frame)) in records.iter().zip(&frames).enumerate() {
        assert_eq!([record.seconds, record.micros], time(i));
        assert_eq!(record.frame, *frame);
    }
}

#[test]
fn records_stop_where_the_stretch_does() {
    let cut = &SESSION[..SESSION.len() - 1];
    let times = vec![[0, 0]; 10_000];
    let told: Vec<_> = pcap::records(cut, &times).collect();
    let owed: Vec<_> = sheafsledge::stretch(cut).collect();
    assert_eq!(told.len(), owed.len());
    let last = told.last().expect("a stop").expect_err("it is cut");
    assert_eq!(last.refusal, Refusal::StretchCut);
    assert!(told[..told.len() - 1].iter().all(Result::is_ok));
}
