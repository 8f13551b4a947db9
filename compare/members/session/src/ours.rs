//! The crate's session: its text of a file, its trailer, and one that is followed beside the second.

use std::cell::RefCell;
use std::fmt::Write;

use sheafsledge::session::{seal, Recording, Session};
use sheafsledge::{Fid, Refusal};

use crate::beside::Other;
use crate::recording::TRAILER;

/// As the program's, of a file of any length.
pub fn text(file: &[u8]) -> String {
    let Ok(recording) = Recording::open(file) else {
        return "stop 0 19\n".into();
    };
    let (mut text, mut frames) = (String::from("at size type tag answer tail\n"), 0);
    for step in recording.steps() {
        let step = step.expect("a recording reads to its end");
        let answer = step.refusal.map_or(0, Refusal::number);
        let tail = match answer {
            0 => step.tail.to_string(),
            _ => "-".into(),
        };
        let (at, size, ty, tag) = (step.at, step.size, step.ty, step.tag.0);
        writeln!(text, "{at} {size} {ty} {tag} {answer} {tail}").expect("it is a string");
        frames += 1;
    }
    let end = recording.stretch().len();
    writeln!(text, "end {end} {frames}").expect("it is a string");
    text
}

/// Whether the trailer that it makes of a file's stretch is the file's.
pub fn seals(file: &[u8]) -> bool {
    let (stretch, trailer) = file.split_at(file.len() - TRAILER);
    seal(stretch).is_ok_and(|made| made == trailer)
}

/// What a byte of the room is before a path is written.
const BLANK: u8 = 0xaa;

/// The session, and the room for its paths: any of them fits, since a drawn stretch is no longer.
pub struct Ours {
    session: Session,
    room: RefCell<Vec<u8>>,
}

impl Ours {
    pub fn new() -> Self {
        let room = RefCell::new(vec![BLANK; 1 << 17]);
        Ours {
            session: Session::new(),
            room,
        }
    }
}

impl Other for Ours {
    fn step(&mut self, stretch: &[u8], at: usize) -> u8 {
        let step = self.session.step(stretch, at);
        let step = step.expect("the stretch reads to its end");
        let step = step.expect("a frame stands there");
        step.refusal.map_or(0, Refusal::number)
    }

    /// In room that is one byte short it has to be refused, with nothing written.
    fn path(&self, stretch: &[u8], fid: u32) -> Result<Vec<u8>, u8> {
        let mut room = self.room.borrow_mut();
        let asked = |room: &mut [u8]| {
            let path = self.session.path(Fid(fid), stretch, room);
            path.map(<[u8]>::to_vec).map_err(Refusal::number)
        };
        let path = asked(&mut room)?;
        let len = path.len();
        room[..len].fill(BLANK);
        if let Some(short) = len.checked_sub(1) {
            assert_eq!(asked(&mut room[..short]), Err(11), "a byte short");
        }
        let near = &room[..len + 16];
        assert!(near.iter().all(|byte| *byte == BLANK), "beside the path");
        Ok(path)
    }
}
