//! The questions that compare/list writes.

use std::array;
use std::collections::HashSet;

use judge::cases::{
    bytes, damaged, drawn, header, sized, too_many, types, unknown, wraps, DIRECTIONS,
};
use judge::Direction;
use p9::draw::Draws;
use p9::protocol::{
    Data, P9String, Rframe, Rmessage, Rread, Rreaddir, Rreadlink, Tframe, Tmessage, Tsymlink,
    Tversion, Twalk, Twrite,
};
use p9::show::hex;

/// A frame of that many bytes fits the program's line.
const MOST: usize = 1024;

/// Each kind of bytes that RFC 3629 rules out: no first byte, overlong, a surrogate, above
/// U+10FFFF, cut short, another byte in place of a later one; and zero bytes, which are UTF-8.
const TEXTS: [&[u8]; 36] = [
    b"\x80",
    b"\xbf",
    b"\xc0\x80",
    b"\xc1\xbf",
    b"\xc2",
    b"\xc2\x7f",
    b"\xc2\xc0",
    b"\xdf\xff",
    b"\xe0\x80\x80",
    b"\xe0\x9f\xbf",
    b"\xe0\xa0",
    b"\xe0\xa0\x7f",
    b"\xe1\x7f\xbf",
    b"\xec\x80\xc0",
    b"\xed\xa0\x80",
    b"\xed\xbf\xbf",
    b"\xef\xbf",
    b"\xef\xc0\x80",
    b"\xf0\x80\x80\x80",
    b"\xf0\x8f\xbf\xbf",
    b"\xf0\x90\x80",
    b"\xf0\x90\x7f\x80",
    b"\xf1\x80\x80\x7f",
    b"\xf3\x7f\x80\x80",
    b"\xf4\x8f\xbf",
    b"\xf4\x90\x80\x80",
    b"\xf5\x80\x80\x80",
    b"\xf8\x88\x80\x80\x80",
    b"\xfe",
    b"\xff",
    b"a\x80",
    b"\x00",
    b"a\x00b",
    b"\x00\xff",
    b"\xff\x00",
    b"\xc3\xa9\x00",
];

/// The questions so far, each once.
pub struct List {
    draws: Draws,
    pub lines: Vec<String>,
    seen: HashSet<String>,
    /// How many were left out, since the Rust is known to answer otherwise.
    pub known: usize,
}

pub fn list(seed: u64) -> List {
    let mut list = List {
        draws: Draws::new(seed),
        lines: Vec::new(),
        seen: HashSet::new(),
        known: 0,
    };
    for direction in DIRECTIONS {
        list.whole(direction);
        list.sizes(direction);
        list.cuts(direction);
        list.damage(direction);
        list.unknown(direction);
    }
    list.lengths();
    list.texts();
    list.limits();
    list.counts();
    list
}

impl List {
    fn add(&mut self, line: String) {
        if self.seen.insert(line.clone()) {
            self.lines.push(line);
        }
    }

    fn ask(&mut self, direction: Direction, frame: &[u8]) {
        if wraps(direction, frame) || too_many(direction, frame) {
            self.known += 1;
            return;
        }
        let line = format!("{direction:?} {}", hex(frame));
        self.add(line.trim_end().into());
    }

    /// A drawn frame that leaves room for what is put to it.
    fn drawn(&mut self, direction: Direction, place: usize) -> Vec<u8> {
        loop {
            let frame = drawn(direction, place, &mut self.draws);
            if frame.len() <= MOST - 16 {
                return frame;
            }
        }
    }

    /// A short one, since much is asked of it.
    fn short(&mut self, direction: Direction, place: usize) -> Vec<u8> {
        let frames: [Vec<u8>; 4] = array::from_fn(|_| self.drawn(direction, place));
        frames.into_iter().min_by_key(Vec::len).unwrap_or_default()
    }

    fn whole(&mut self, direction: Direction) {
        for place in 0..types(direction) {
            for _ in 0..16 {
                let frame = self.drawn(direction, place);
                self.ask(direction, &frame);
            }
        }
    }

    /// A tail inside the size and after it, a size above the bytes held, and the sizes 0 to 8.
    fn sizes(&mut self, direction: Direction) {
        for place in 0..types(direction) {
            let frame = self.short(direction, place);
            let size = frame.len() as u32;
            let count = self.draws.below(16);
            let tail = [frame.clone(), self.draws.bytes(count)].concat();
            self.ask(direction, &tail);
            self.ask(direction, &sized(tail, size + count as u32));
            let more = self.draws.one_of(&[size + 1, size + 100, u32::MAX]);
            self.ask(direction, &sized(frame.clone(), more));
            for small in 0..=8 {
                self.ask(direction, &sized(frame.clone(), small));
            }
        }
    }

    /// Every cut of a frame of every fourth type: of its bytes, and of its size alone.
    fn cuts(&mut self, direction: Direction) {
        for place in (0..types(direction)).step_by(4) {
            let frame = self.short(direction, place);
            for end in 0..frame.len() {
                self.ask(direction, &frame[..end]);
                self.ask(direction, &sized(frame.clone(), end as u32));
            }
        }
    }

    fn damage(&mut self, direction: Direction) {
        for place in 0..types(direction) {
            for _ in 0..8 {
                let frame = self.short(direction, place);
                let frame = damaged(frame, &mut self.draws);
                self.ask(direction, &frame);
            }
        }
    }

    fn unknown(&mut self, direction: Direction) {
        for ty in unknown(direction) {
            let tag = self.draws.number() as u16;
            self.ask(direction, &header(7, *ty, tag));
        }
    }

    /// Lengths around which the second byte of a count begins to count.
    fn lengths(&mut self) {
        for count in [255, 256, 257, 511, 512, 900] {
            self.ask(Direction::T, &version(name(count)));
            self.ask(Direction::T, &walk(name(count)));
            self.ask(Direction::R, &readlink(name(count)));
            self.ask(Direction::T, &write(count));
            self.ask(Direction::R, &read(count));
        }
    }

    /// The Rust makes no such string, so a sound one is written and replaced.
    fn texts(&mut self) {
        for text in TEXTS {
            let sound = || name(text.len());
            self.ask(Direction::T, &replaced(version(sound()), 13, text));
            self.ask(Direction::T, &replaced(symlink(sound()), 16, text));
            self.ask(Direction::T, &replaced(walk(sound()), 22, text));
            self.ask(Direction::R, &replaced(readlink(sound()), 9, text));
        }
    }

    /// Data counts around the reading limit, with no data after them.
    fn limits(&mut self) {
        for count in [1, 33_554_432, 33_554_433, u32::MAX] {
            let count = count.to_le_bytes();
            self.ask(Direction::T, &replaced(write(0), 19, &count));
            self.ask(Direction::R, &replaced(read(0), 7, &count));
            self.ask(Direction::R, &replaced(readdir(), 7, &count));
        }
    }

    /// Letters in a string, up to one more than there may be, and names in a walk, up to sixteen.
    fn counts(&mut self) {
        let letters = [0, 1, 255, 256, 65_534, 65_535, 65_536].map(|count| format!("S {count}"));
        let names = [0, 1, 15, 16].map(|count| format!("W {count}"));
        for asked in letters.into_iter().chain(names) {
            self.add(asked);
        }
    }
}

fn name(count: usize) -> P9String {
    P9String::new(vec![b'a'; count]).expect("a sound name")
}

fn version(version: P9String) -> Vec<u8> {
    t(Tmessage::Version(Tversion {
        msize: 8192,
        version,
    }))
}

/// The string is the second of two.
fn symlink(symtgt: P9String) -> Vec<u8> {
    t(Tmessage::Symlink(Tsymlink {
        fid: 1,
        name: name(1),
        symtgt,
        gid: 2,
    }))
}

/// The string is the second of three names.
fn walk(second: P9String) -> Vec<u8> {
    t(Tmessage::Walk(Twalk {
        fid: 1,
        newfid: 2,
        wnames: vec![name(1), second, name(2)],
    }))
}

fn readlink(target: P9String) -> Vec<u8> {
    r(Rmessage::Readlink(Rreadlink { target }))
}

fn write(count: usize) -> Vec<u8> {
    t(Tmessage::Write(Twrite {
        fid: 1,
        offset: 2,
        data: Data(vec![3; count]),
    }))
}

fn read(count: usize) -> Vec<u8> {
    r(Rmessage::Read(Rread {
        data: Data(vec![4; count]),
    }))
}

fn readdir() -> Vec<u8> {
    r(Rmessage::Readdir(Rreaddir {
        data: Data(Vec::new()),
    }))
}

fn t(msg: Tmessage) -> Vec<u8> {
    bytes(&Tframe {
        tag: 1,
        msg: Ok(msg),
    })
}

fn r(msg: Rmessage) -> Vec<u8> {
    bytes(&Rframe { tag: 1, msg })
}

fn replaced(mut frame: Vec<u8>, at: usize, bytes: &[u8]) -> Vec<u8> {
    frame[at..at + bytes.len()].copy_from_slice(bytes);
    frame
}
