//! Frames from streams that give one byte at a time, have nothing for a while, end early, or fail.
//!
//! What a stream has to give is asked of the proved library, which lists the same bytes as a
//! stretch.

mod counting;
#[cfg(target_os = "linux")]
#[path = "../examples/server/files.rs"]
mod files;
#[cfg(target_os = "linux")]
#[path = "../examples/server/serve.rs"]
mod serve;
#[cfg(target_os = "linux")]
#[path = "../examples/server/session.rs"]
mod session;

use std::io::{self, ErrorKind, Read};
use std::panic::{catch_unwind, AssertUnwindSafe};

use counting::counted;
use sheafsledge::stream::{Broken, Frames, Next, TooLong};
use sheafsledge::{stretch, Refusal, Tag, Tframe, Tmessage};

const SESSION: &[u8] = include_bytes!("../../examples/diod-session.bin");

/// No frame of the session is longer.
const MSIZE: u32 = 8192;

const TFLUSH: &[u8] = b"\x09\0\0\0\x6c\x01\0\x02\0";
const RFLUSH: &[u8] = b"\x07\0\0\0\x6d\x01\0";
const TCLUNK: &[u8] = b"\x0b\0\0\0\x78\x01\0\x02\0\0\0";

/// A Twrite whose data would be Tclunks. The data begins at byte 23.
fn twrite(tclunks: usize) -> Vec<u8> {
    let data = TCLUNK.repeat(tclunks);
    let (size, count) = (23 + data.len() as u32, data.len() as u32);
    let head = [&size.to_le_bytes()[..], b"\x76\x05\0\x02\0\0\0", &[0; 8]].concat();
    [&head[..], &count.to_le_bytes(), &data].concat()
}

/// Before which bytes a stream fails.
#[derive(Clone, Copy, Debug)]
enum Before {
    Each,
    One(usize),
}

/// Gives at most `step` bytes at once, and fails `times` times before a byte; the end counts as
/// one.
#[derive(Clone, Copy, Debug)]
struct Halting<'a> {
    bytes: &'a [u8],
    at: usize,
    step: usize,
    before: Before,
    times: usize,
    failed: usize,
    kind: ErrorKind,
}

impl<'a> Halting<'a> {
    fn new(bytes: &'a [u8], before: Before, times: usize, kind: ErrorKind) -> Self {
        Self {
            bytes,
            at: 0,
            step: usize::MAX,
            before,
            times,
            failed: 0,
            kind,
        }
    }

    /// One that never fails.
    fn slow(bytes: &'a [u8], step: usize) -> Self {
        let never = Self::new(bytes, Before::Each, 0, ErrorKind::Other);
        Self { step, ..never }
    }

    /// How many bytes there are until it fails again.
    fn until(&self) -> usize {
        match self.before {
            Before::Each if self.times > 0 => 1,
            Before::One(place) if place > self.at => place - self.at,
            _ => usize::MAX,
        }
    }
}

impl Read for Halting<'_> {
    fn read(&mut self, place: &mut [u8]) -> io::Result<usize> {
        let halts = match self.before {
            Before::Each => true,
            Before::One(place) => place == self.at,
        };
        if halts && self.failed < self.times {
            self.failed += 1;
            return Err(self.kind.into());
        }
        self.failed = 0;
        let most = place.len().min(self.step).min(self.until());
        let count = (&self.bytes[self.at..]).read(&mut place[..most])?;
        self.at += count;
        Ok(count)
    }
}

/// What a call answered.
#[derive(Clone, Debug, PartialEq, Eq)]
enum Told {
    Frame(Vec<u8>),
    TooLong(TooLong),
    End,
    Refused(Refusal),
    Io(ErrorKind, Option<i32>),
}

fn told(next: Result<Next, Broken>) -> Told {
    match next {
        Ok(Next::Frame(frame)) => Told::Frame(frame.to_vec()),
        Ok(Next::TooLong(long)) => Told::TooLong(long),
        Ok(Next::End) => Told::End,
        Err(Broken::Refused(refusal)) => Told::Refused(refusal),
        Err(Broken::Io(error)) => Told::Io(error.kind(), error.raw_os_error()),
    }
}

/// All that a stream gives, and how often it had nothing yet. The last answer is given again.
fn all<R: Read>(frames: &mut Frames<R>) -> (Vec<Told>, usize) {
    let (mut list, mut waits) = (Vec::new(), 0);
    loop {
        let next = frames.next_frame();
        if matches!(&next, Err(broken) if broken.goes_on()) {
            waits += 1;
            continue;
        }
        list.push(told(next));
        if !matches!(list.last(), Some(Told::Frame(_) | Told::TooLong(_))) {
            for _ in 0..3 {
                assert_eq!(Some(&told(frames.next_frame())), list.last());
            }
            return (list, waits);
        }
    }
}

/// What the stream of these bytes has to give, by the proved stretch. A frame that is too long is
/// told before it is there, so that one may also be cut.
fn due(bytes: &[u8], msize: u32) -> Vec<Told> {
    let mut list = Vec::new();
    for frame in stretch(bytes) {
        match frame {
            Ok(frame) if frame.size > msize as usize => list.push(long(&bytes[frame.at..])),
            Ok(frame) => list.push(Told::Frame(bytes[frame.at..frame.next].to_vec())),
            Err(stop) => {
                let rest = &bytes[stop.at..];
                if stop.refusal == Refusal::StretchCut && rest.len() >= 7 && size(rest) > msize {
                    list.push(long(rest));
                }
                list.push(Told::Refused(stop.refusal));
                return list;
            }
        }
    }
    list.push(Told::End);
    list
}

fn size(frame: &[u8]) -> u32 {
    u32::from_le_bytes([frame[0], frame[1], frame[2], frame[3]])
}

fn long(frame: &[u8]) -> Told {
    Told::TooLong(TooLong {
        size: size(frame),
        ty: frame[4],
        tag: Tag(u16::from_le_bytes([frame[5], frame[6]])),
    })
}

const WAITING: [ErrorKind; 2] = [ErrorKind::WouldBlock, ErrorKind::TimedOut];

/// Bytes as streams of all kinds give them: slowly, or with nothing to give before each byte or
/// before one, once or often.
fn try_all(bytes: &[u8], msize: u32) {
    let due = due(bytes, msize);
    let same = |stream: Halting| {
        let (list, _) = all(&mut Frames::new(stream, msize));
        assert_eq!(list, due, "{stream:?} {msize}");
    };
    for step in [1, 2, 3, usize::MAX] {
        same(Halting::slow(bytes, step));
    }
    for kind in [WAITING[0], WAITING[1], ErrorKind::Interrupted] {
        for times in [1, 3] {
            same(Halting::new(bytes, Before::Each, times, kind));
            for place in 0..=bytes.len() {
                same(Halting::new(bytes, Before::One(place), times, kind));
            }
        }
    }
}

#[test]
fn frames_come_one_by_one() {
    let bytes = [TFLUSH, RFLUSH].concat();
    let mut frames = Frames::new(Halting::slow(&bytes, 1), 9);
    assert_eq!(frames.next_frame().unwrap(), Next::Frame(TFLUSH));
    assert_eq!(frames.next_frame().unwrap(), Next::Frame(RFLUSH));
    assert_eq!(frames.next_frame().unwrap(), Next::End);
    assert_eq!(frames.next_frame().unwrap(), Next::End);
}

#[test]
fn a_session_comes_whole_whatever_each_byte_waits_for() {
    let due = due(SESSION, MSIZE);
    assert_eq!(due.len(), 225, "224 frames and the end");
    for (kind, told) in [
        (WAITING[0], true),
        (WAITING[1], true),
        (ErrorKind::Interrupted, false),
    ] {
        for times in [1, 2, 7] {
            let stream = Halting::new(SESSION, Before::Each, times, kind);
            let (list, waits) = all(&mut Frames::new(stream, MSIZE));
            assert_eq!(list, due, "{kind} {times}");
            let each = if told { times } else { 0 };
            assert_eq!(waits, each * (SESSION.len() + 1), "{kind} {times}");
        }
    }
    for step in [1, 5, usize::MAX] {
        let stream = Halting::slow(SESSION, step);
        assert_eq!(all(&mut Frames::new(stream, MSIZE)), (due.clone(), 0));
    }
}

/// One time-out at any byte of the session: the frame that it comes in is whole, and so are the
/// two after it.
#[test]
fn one_time_out_anywhere_changes_no_frame() {
    let frames: Vec<_> = stretch(SESSION).flatten().collect();
    for (i, frame) in frames.iter().enumerate() {
        let end = frames.get(i + 2).map_or(SESSION.len(), |last| last.next);
        let bytes = &SESSION[frame.at..end];
        for msize in [40, MSIZE] {
            let due = due(bytes, msize);
            for place in 0..=frame.size {
                let kind = WAITING[place % 2];
                let stream = Halting::new(bytes, Before::One(place), 1, kind);
                let (list, waits) = all(&mut Frames::new(stream, msize));
                assert_eq!((&list, waits), (&due, 1), "{} {place}", frame.at);
            }
        }
    }
}

/// The accident again: after a time-out in the middle of a Twrite its data came as a Tclunk.
#[test]
fn data_is_no_frame_after_a_time_out() {
    let twrite = twrite(1);
    let bytes = [&twrite[..], RFLUSH].concat();
    for kind in WAITING {
        let mut frames = Frames::new(Halting::new(&bytes, Before::One(23), 1, kind), MSIZE);
        assert_eq!(told(frames.next_frame()), Told::Io(kind, None));
        let Ok(Next::Frame(frame)) = frames.next_frame() else {
            panic!("the Twrite");
        };
        assert_eq!(frame, twrite);
        let Ok(Tmessage::Write(write)) = Tframe::decode(frame).unwrap().frame.msg else {
            panic!("a Twrite");
        };
        assert_eq!(write.data.0, TCLUNK);
        assert_eq!(frames.next_frame().unwrap(), Next::Frame(RFLUSH));
    }
    try_all(&bytes, MSIZE);
}

#[test]
fn a_frame_too_long_is_passed_over_and_none_of_it_is_a_frame() {
    let (short, full) = (twrite(1), twrite(3));
    let bytes = [TFLUSH, &full, &short, &full, &full, RFLUSH].concat();
    for msize in [0, 6, 7, 8, 9, 33, 34, 35, 55, 56] {
        try_all(&bytes, msize);
    }
    let (list, _) = all(&mut Frames::new(&bytes[..], 34));
    let TooLong { size, ty, tag } = match list[1] {
        Told::TooLong(long) => long,
        _ => panic!("{list:?}"),
    };
    assert_eq!((size, ty, tag, list.len()), (56, 0x76, Tag(5), 7));
    assert_eq!(list[2], Told::Frame(short));
}

/// Seven bytes are there and no more: it is told, however long it would be.
#[test]
fn a_frame_too_long_is_told_by_its_first_seven_bytes() {
    for size in [35, 65_536, u32::MAX] {
        let head = [&size.to_le_bytes()[..], b"\x76\x05\x01"].concat();
        for end in 0..7 {
            let waiting = Halting::new(&head, Before::One(end), 1, WAITING[0]);
            let mut frames = Frames::new(waiting, 34);
            assert_eq!(told(frames.next_frame()), Told::Io(WAITING[0], None));
            assert_eq!(told(frames.next_frame()), long(&head), "{end}");
        }
        let mut frames = Frames::new(Halting::new(&head, Before::One(7), 9, WAITING[1]), 34);
        assert_eq!(told(frames.next_frame()), long(&head));
        for _ in 0..9 {
            assert_eq!(told(frames.next_frame()), Told::Io(WAITING[1], None));
        }
        let cut = Told::Refused(Refusal::StretchCut);
        assert_eq!(told(frames.next_frame()), cut);
    }
}

/// The example's server answers its tag with EMSGSIZE, and goes on after it.
#[cfg(target_os = "linux")]
#[test]
fn a_server_answers_a_frame_too_long_and_goes_on() {
    let agreed = b"\0\x02\0\0\x08\09P2000.L";
    let version = |ty| [&[21, 0, 0, 0, ty, 0xff, 0xff], &agreed[..]].concat();
    let (full, long) = (twrite(44), twrite(45));
    assert_eq!((full.len(), long.len()), (507, 518), "512 are agreed on");
    let requests = [&version(100), &long, TFLUSH, &full, &long, TFLUSH].concat();
    let mut replies = Vec::new();
    let folder = std::env::temp_dir();
    serve::serve(Halting::slow(&requests, 5), &mut replies, &folder).expect("the end");
    let failed = |errno| [11, 0, 0, 0, 7, 5, 0, errno, 0, 0, 0];
    let (too_long, not_done) = (failed(90), failed(95));
    let due = [&version(101), &too_long[..], RFLUSH, &not_done];
    assert_eq!(replies, [&due.concat(), &too_long[..], RFLUSH].concat());
}

/// Gives these pieces one by one, an empty one as an end; read after the last, it panics.
struct Pieces<'a>(Vec<&'a [u8]>);

impl Read for Pieces<'_> {
    fn read(&mut self, place: &mut [u8]) -> io::Result<usize> {
        let count = self.0[0].read(place)?;
        if self.0[0].is_empty() {
            self.0.remove(0);
        }
        Ok(count)
    }
}

/// Also where the stream has bytes again after its end.
#[test]
fn an_end_inside_a_frame_is_no_end_and_stays() {
    let twrite = twrite(2);
    let bytes = [RFLUSH, &twrite, TFLUSH].concat();
    let cut = Told::Refused(Refusal::StretchCut);
    for msize in [20, MSIZE] {
        for end in 8..7 + twrite.len() {
            try_all(&bytes[..end], msize);
            // A piece that is all read is followed by the end, and then there would be more.
            let pieces = Pieces(vec![&bytes[..end], b"", &bytes[end..]]);
            let (list, _) = all(&mut Frames::new(pieces, msize));
            assert_eq!(list, due(&bytes[..end], msize));
            assert_eq!(list.last(), Some(&cut));
        }
    }
}

#[test]
fn the_end_stays() {
    let pieces = Pieces(vec![TFLUSH, b"", TFLUSH]);
    let (list, _) = all(&mut Frames::new(pieces, MSIZE));
    assert_eq!(list, [Told::Frame(TFLUSH.to_vec()), Told::End]);
}

#[test]
fn a_size_that_no_frame_has_is_refused_by_four_bytes_and_stays() {
    for size in 0..7 {
        let bytes = [&[size, 0, 0, 0], TFLUSH, TFLUSH].concat();
        try_all(&[TFLUSH, &bytes].concat(), MSIZE);
        let waiting = Halting::new(&bytes, Before::One(4), 9, WAITING[0]);
        let mut frames = Frames::new(waiting, MSIZE);
        for _ in 0..20 {
            let refused = Told::Refused(Refusal::StretchSize);
            assert_eq!(told(frames.next_frame()), refused, "{size}");
        }
    }
}

/// Gives these bytes and fails then, once. It must not be read after that.
struct Failing<'a> {
    bytes: &'a [u8],
    error: Option<io::Error>,
}

impl Read for Failing<'_> {
    fn read(&mut self, place: &mut [u8]) -> io::Result<usize> {
        match (self.bytes, &self.error) {
            ([], Some(_)) => Err(self.error.take().expect("it is there")),
            ([], None) => panic!("read after it had failed"),
            _ => self.bytes.read(place),
        }
    }
}

#[test]
fn an_error_stays_whatever_comes_after_it() {
    let bytes = [RFLUSH, &twrite(2), RFLUSH].concat();
    let system = io::Error::from_raw_os_error(104);
    let kinds = [system.kind(), ErrorKind::Other, ErrorKind::UnexpectedEof];
    for msize in [20, MSIZE] {
        for (end, kind) in (0..=bytes.len()).flat_map(|end| kinds.map(|kind| (end, kind))) {
            let (error, number) = match kind {
                ErrorKind::Other => (io::Error::other("in words"), None),
                ErrorKind::UnexpectedEof => (kind.into(), None),
                _ => (io::Error::from_raw_os_error(104), Some(104)),
            };
            let error = Some(error);
            let stream = Failing {
                bytes: &bytes[..end],
                error,
            };
            let (list, _) = all(&mut Frames::new(stream, msize));
            let mut due = due(&bytes[..end], msize);
            *due.last_mut().unwrap() = Told::Io(kind, number);
            assert_eq!(list, due, "{end}");
        }
    }
}

/// The first time it is the stream's own error, with its words.
#[test]
fn an_error_is_passed_on_as_it_is() {
    for kind in [ErrorKind::TimedOut, ErrorKind::ConnectionReset] {
        let error = Some(io::Error::new(kind, "in words"));
        let mut frames = Frames::new(Failing { bytes: &[], error }, MSIZE);
        let broken = frames.next_frame().unwrap_err();
        assert_eq!(broken.to_string(), "in words");
        assert_eq!(io::Error::from(broken).kind(), kind);
    }
}

/// A reader must not say so, but could.
#[test]
fn a_stream_that_gives_more_than_was_asked_for_is_broken() {
    struct Boasting;
    impl Read for Boasting {
        fn read(&mut self, place: &mut [u8]) -> io::Result<usize> {
            place.fill(9);
            Ok(place.len() + 1)
        }
    }
    let (list, _) = all(&mut Frames::new(Boasting, MSIZE));
    assert_eq!(list, [Told::Io(ErrorKind::InvalidData, None)]);
}

/// How much of the stream is gone is not known then.
#[test]
fn a_stream_that_panics_is_broken() {
    struct Panicking(usize);
    impl Read for Panicking {
        fn read(&mut self, place: &mut [u8]) -> io::Result<usize> {
            assert_ne!(self.0, 7, "on purpose");
            let count = TCLUNK[self.0..].as_ref().read(&mut place[..1])?;
            self.0 += count;
            Ok(count)
        }
    }
    let mut frames = Frames::new(Panicking(0), MSIZE);
    let panicked = catch_unwind(AssertUnwindSafe(|| told(frames.next_frame())));
    assert!(panicked.is_err());
    let (list, _) = all(&mut frames);
    assert_eq!(list, [Told::Io(ErrorKind::Other, None)]);
}

/// Reads until the stream halts at a place, and says what came before.
fn until_it_halts<R: Read>(frames: &mut Frames<R>) -> Vec<Told> {
    let mut list = Vec::new();
    loop {
        match frames.next_frame() {
            Err(broken) if broken.goes_on() => return list,
            next => list.push(told(next)),
        }
    }
}

/// No frame is given that is longer than the msize that stands, also where a part of it was read
/// before; and what was told as too long stays so.
#[test]
fn the_msize_may_change_at_any_byte() {
    let twrite = twrite(2);
    let bytes = [TFLUSH, &twrite, TFLUSH, &twrite, RFLUSH].concat();
    let sizes = [0, 7, 9, 44, 45, 46, 8192];
    let changes = sizes.map(|first| sizes.map(|then| (first, then)));
    for place in 0..=bytes.len() {
        for (first, then) in changes.into_iter().flatten() {
            let halting = Halting::new(&bytes, Before::One(place), 1, WAITING[0]);
            let mut frames = Frames::new(halting, first);
            let mut list = until_it_halts(&mut frames);
            frames.set_msize(then);
            assert_eq!(frames.msize(), then);
            let before = list.len();
            list.extend(all(&mut frames).0);
            let due = [&due(&bytes, first)[..before], &due(&bytes, then)[before..]].concat();
            assert_eq!(list, due, "{place}: {first}, then {then}");
        }
    }
}

/// It changes nothing after the stream is broken.
#[test]
fn a_new_msize_mends_nothing() {
    let mut frames = Frames::new(&b"\x06\0\0\0\x6d\x01\0\x07\0\0\0\x6d\x01\0"[..], 8);
    let refused = Told::Refused(Refusal::StretchSize);
    assert_eq!(told(frames.next_frame()), refused);
    for msize in [0, 8192] {
        frames.set_msize(msize);
        assert_eq!(told(frames.next_frame()), refused);
    }
}

/// Nothing is read past a frame, and in the middle of one the stream is not given away.
#[test]
fn the_stream_is_given_back_between_frames_alone() {
    let twrite = twrite(2);
    let bytes = [TFLUSH, &twrite, RFLUSH].concat();
    let ends = [0, 9, 54, 61];
    for (place, msize) in (0..=bytes.len()).flat_map(|place| [(place, 20), (place, MSIZE)]) {
        let halting = Halting::new(&bytes, Before::One(place), 1, WAITING[0]);
        let mut frames = Frames::new(halting, msize);
        let mut list = until_it_halts(&mut frames);
        match frames.into_inner() {
            Ok(stream) => {
                assert_eq!(stream.at, place);
                assert!(ends.contains(&place));
                frames = Frames::new(stream, msize);
            }
            Err(same) => {
                assert!(!ends.contains(&place));
                frames = same;
            }
        }
        list.extend(all(&mut frames).0);
        assert_eq!(list, due(&bytes, msize), "{place} {msize}");
        assert_eq!(frames.into_inner().expect("the end").at, bytes.len());
    }
}

/// Also where it failed between two frames: what it lost there is not known.
#[test]
fn a_broken_stream_is_not_given_back() {
    for end in 7..10 {
        let error = Some(ErrorKind::ConnectionReset.into());
        let bytes = &[RFLUSH, TFLUSH].concat()[..end];
        let mut frames = Frames::new(Failing { bytes, error }, MSIZE);
        assert_eq!(all(&mut frames).0.len(), 2, "a frame and the error");
        assert!(frames.into_inner().is_err());
    }
    let mut frames = Frames::new(&TFLUSH[..8], MSIZE);
    assert!(frames.next_frame().is_err());
    assert!(frames.into_inner().is_err());
}

#[test]
fn a_stream_is_cut_as_the_stretch_is() {
    for end in 0..1_500 {
        let bytes = &SESSION[..end];
        for msize in [40, 4096] {
            let (list, _) = all(&mut Frames::new(Halting::slow(bytes, 1), msize));
            assert_eq!(list, due(bytes, msize), "{end}");
        }
    }
    for size in 0..20 {
        let bytes = [&SESSION[..42], &[size, 0, 0, 0, 108, 1, 0, 2, 0, 3]].concat();
        try_all(&bytes, 4096);
        try_all(&bytes, 12);
    }
}

/// Sizes, bytes, msizes and halts by chance, the same in each run.
#[test]
fn streams_by_chance_are_cut_as_the_stretch_is() {
    let mut state = 0x9e37_79b9_7f4a_7c15_u64;
    let mut below = move |limit: usize| {
        state ^= state << 13;
        state ^= state >> 7;
        state ^= state << 17;
        (state % limit as u64) as usize
    };
    for _ in 0..20_000 {
        let mut bytes = Vec::new();
        for _ in 0..below(6) {
            // Few sizes are below 7, and few frames are shorter than they say.
            let size = 5 + below(40);
            let there = size - below(8) / 7;
            let rest = (4..there).map(|_| below(12) as u8);
            bytes.extend([size as u8, 0, 0, 0].into_iter().chain(rest));
        }
        let before = match below(3) {
            0 => Before::Each,
            _ => Before::One(below(bytes.len() + 1)),
        };
        let stream = Halting {
            step: 1 + below(12),
            ..Halting::new(&bytes, before, below(4), WAITING[below(2)])
        };
        let msize = below(50) as u32;
        let (list, _) = all(&mut Frames::new(stream, msize));
        assert_eq!(list, due(&bytes, msize), "{stream:?} {msize}");
    }
}

/// How many frames there are, and how many that are too long.
fn numbers<R: Read>(frames: &mut Frames<R>) -> (usize, usize) {
    let (mut given, mut long) = (0, 0);
    loop {
        match frames.next_frame() {
            Ok(Next::Frame(_)) => given += 1,
            Ok(Next::TooLong(_)) => long += 1,
            Ok(Next::End) => return (given, long),
            Err(broken) => assert!(broken.goes_on(), "{broken}"),
        }
    }
}

#[test]
fn nothing_is_allocated_for_a_frame() {
    let halting = Halting::new(SESSION, Before::Each, 2, WAITING[0]);
    for msize in [MSIZE, 40] {
        let mut frames = None;
        let made = counted(|| frames = Some(Frames::new(halting, msize)));
        assert_eq!(made, 1, "the buffer");
        let mut frames = frames.expect("it is made");
        let mut numbered = (0, 0);
        assert_eq!(counted(|| numbered = numbers(&mut frames)), 0);
        let long = stretch(SESSION).flatten();
        let long = long.filter(|frame| frame.size > msize as usize).count();
        assert_eq!(numbered, (224 - long, long));
        for (msize, grown) in [(20, 0), (0, 0), (msize, 0), (9000, 1), (40, 0), (9000, 0)] {
            assert_eq!(counted(|| frames.set_msize(msize)), grown, "{msize}");
        }
    }
}
