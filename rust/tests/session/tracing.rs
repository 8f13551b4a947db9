//! A trace beside what is owed of it.

use sheafsledge::session::steps;
use sheafsledge::{Fid, Refusal, Stop};

use super::frames::*;

/// Frames and the answer that each is owed.
pub type Frames = Vec<(Vec<u8>, u8)>;

/// What a fid names after them; none if it is unknown.
pub type Paths<'a> = &'a [(u32, Option<&'a str>)];

pub fn answers(stretch: &[u8]) -> Vec<u8> {
    let answer = |step: Result<sheafsledge::session::Step, Stop>| {
        step.expect("a frame").refusal.map_or(0, Refusal::number)
    };
    steps(stretch).map(answer).collect()
}

/// Follows the frames, and looks at the paths.
pub fn traced(why: &str, frames: Frames, paths: Paths) {
    let (bytes, owed): (Vec<_>, Vec<u8>) = frames.into_iter().unzip();
    let stretch = bytes.concat();
    assert_eq!(answers(&stretch), owed, "{why}");
    let mut followed = steps(&stretch);
    followed.by_ref().for_each(drop);
    for (fid, owed) in paths {
        let mut room = [0x5a; 64];
        let told = followed.path(Fid(*fid), &mut room);
        let owed = owed.map(str::as_bytes).ok_or(Refusal::FidUnknown);
        assert_eq!(told, owed, "{why}: fid {fid}");
    }
}

/// All of them accepted.
pub fn accepted(frames: impl IntoIterator<Item = Vec<u8>>) -> Frames {
    frames.into_iter().map(|frame| (frame, 0)).collect()
}

/// A root in that fid, by tag 1.
pub fn rooted(fid: u32) -> Frames {
    accepted([attach(1, fid, NO_FID), rattach(1)])
}

/// A walk that is done, by tag 1.
pub fn walked(fid: u32, newfid: u32, names: &[&str]) -> Frames {
    accepted([walk(1, fid, newfid, names), rwalk(1, names.len() as u16)])
}
