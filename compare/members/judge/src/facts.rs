//! What the seller's Rust does where no single frame of hex can show it; docs/DIFFERENCES.md
//! is written from these answers.

use std::io::{self, Write};

use judge::refusal::{digits, told_by};
use judge::{judge, quietly, Direction};
use p9::protocol::{
    Data, P9String, Qid, Rframe, Rmessage, Rread, Rwalk, Tflush, Tframe, Tmessage, Twalk, Twrite,
    WireFormat,
};
use p9::show::hex;

const READING_LIMIT: usize = 33_554_432;

/// Keeps what came first and counts the rest, so that 4 GB can be written without holding them.
struct Sink {
    count: u64,
    first: Vec<u8>,
}

impl Write for Sink {
    fn write(&mut self, bytes: &[u8]) -> io::Result<usize> {
        let room = 32usize.saturating_sub(self.first.len());
        self.first.extend(&bytes[..room.min(bytes.len())]);
        self.count += bytes.len() as u64;
        Ok(bytes.len())
    }

    fn flush(&mut self) -> io::Result<()> {
        Ok(())
    }
}

fn t(msg: Tmessage) -> Tframe {
    Tframe {
        tag: 1,
        msg: Ok(msg),
    }
}

fn r(msg: Rmessage) -> Rframe {
    Rframe { tag: 1, msg }
}

fn zeros(count: usize) -> Data {
    Data(vec![0; count])
}

fn walk(count: usize, name: Vec<u8>) -> Tframe {
    let name = P9String::new(name).expect("a sound name");
    t(Tmessage::Walk(Twalk {
        fid: 1,
        newfid: 2,
        wnames: vec![name; count],
    }))
}

fn rread(count: usize) -> Rframe {
    r(Rmessage::Read(Rread { data: zeros(count) }))
}

fn twrite(count: usize) -> Tframe {
    t(Tmessage::Write(Twrite {
        fid: 1,
        offset: 0,
        data: zeros(count),
    }))
}

fn said(outcome: Result<io::Result<()>, String>) -> String {
    match outcome {
        Ok(Ok(())) => "written".into(),
        Ok(Err(error)) => format!("refused {} {}", digits(&error), told_by(&error)),
        Err(text) => format!("panicked text={text:?}"),
    }
}

fn sized(frame: &impl WireFormat) -> String {
    match quietly(|| frame.byte_size()) {
        Ok(size) => format!("byte_size={size}"),
        Err(text) => format!("byte_size panicked text={text:?}"),
    }
}

/// Both ways of asking, since the seller's `encode` and `byte_size` may fail differently. The
/// frame is handed over, so that no two of 4 GB are held at a time.
fn written(what: &str, frame: impl WireFormat) -> String {
    let mut sink = Sink {
        count: 0,
        first: Vec::new(),
    };
    let outcome = said(quietly(|| frame.encode(&mut sink)));
    let (size, first) = (sized(&frame), hex(&sink.first));
    format!(
        "{what}: {size} encode {outcome} count={} first={first}",
        sink.count
    )
}

fn into_room(what: &str, room: usize, frame: &impl WireFormat) -> String {
    let mut buffer = vec![0xee; room];
    let outcome = said(quietly(|| frame.encode(&mut &mut buffer[..])));
    format!(
        "{what} into {room} bytes of ee: encode {outcome} buffer={}",
        hex(&buffer)
    )
}

/// Frames of 4,294,967,296 bytes and more, which is where the u32 sums wrap.
pub fn wrap() -> Vec<String> {
    vec![
        written(
            "Twalk of 65535 names of 65535 bytes",
            walk(65_535, vec![b'a'; 65_535]),
        ),
        written("Rread of 4294967284 bytes", rread(4_294_967_284)),
        written("Rread of 4294967285 bytes", rread(4_294_967_285)),
        written("Rread of 4294967296 bytes", rread(4_294_967_296)),
    ]
}

/// What a refused write has put into the output by then.
pub fn leaves() -> Vec<String> {
    let flush = t(Tmessage::Flush(Tflush { oldtag: 2 }));
    let qid = Qid {
        ty: 0,
        version: 0,
        path: 0,
    };
    let wqids = vec![qid; 65_536];
    vec![
        into_room("Tflush", 0, &flush),
        into_room("Tflush", 1, &flush),
        into_room("Tflush", 8, &flush),
        into_room("Tflush", 9, &flush),
        into_room("Tflush", 11, &flush),
        into_room("Twalk of 65536 empty names", 20, &walk(65_536, Vec::new())),
        into_room(
            "Rwalk of 65536 qids",
            20,
            &r(Rmessage::Walk(Rwalk { wqids })),
        ),
        into_room("Tframe with a refusal", 20, &refused()),
    ]
}

fn refused() -> Tframe {
    let mut unknown: &[u8] = &[7, 0, 0, 0, 106, 5, 0];
    Tframe::decode(&mut unknown).expect("the header is whole")
}

/// Data over the reading limit is written all the same, and then not read.
pub fn limit() -> Vec<String> {
    let mut answers = Vec::new();
    for count in [READING_LIMIT, READING_LIMIT + 1] {
        let what = format!("Twrite of {count} bytes");
        answers.push(written(&what, twrite(count)));
        let mut bytes = Vec::new();
        let outcome = said(quietly(|| twrite(count).encode(&mut bytes)));
        let answer = judge(Direction::T, &bytes).to_string();
        // An accepted one shows 33 MB of hex, twice.
        let start = answer.split(" record=").next().unwrap_or_default();
        answers.push(format!("{what}: {outcome}, read back: {start}"));
    }
    answers
}

/// Each refusal the Rust has, with its kind and text, and the number these tell.
pub fn kinds() -> Vec<String> {
    let read = |what: &str, bytes: &[u8]| format!("{what}: {}", judge(Direction::T, bytes));
    let string = |what: &str, bytes: Vec<u8>| {
        let made = P9String::new(bytes).map(|_| ());
        format!("{what}: {}", said(Ok(made)))
    };
    let over = [&[23, 0, 0, 0, 118, 1, 0][..], &[0; 12], &[1, 0, 0, 2]].concat();
    let short = [&[23, 0, 0, 0, 118, 1, 0][..], &[0; 12], &[1, 0, 0, 0]].concat();
    vec![
        read("1 in a number", &[8, 0, 0, 0, 108, 1, 0, 2]),
        read("1 in data", &short),
        read("2", &[3, 0, 0, 0]),
        read("3", &[7, 0, 0, 0, 106, 5, 0]),
        read("4", &over),
        string("5 wrong byte", b"\xc0\x80".to_vec()),
        string("5 cut short", b"\xe2\x82".to_vec()),
        string("6", b"a\0".to_vec()),
        string("7", vec![b'a'; 65_536]),
        written("8", walk(65_536, Vec::new())),
        written("16", refused()),
    ]
}
