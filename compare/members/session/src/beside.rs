//! Another session that can be asked for paths, followed frame by frame beside the second one. Whoever
//! has one implements `Other` for it; the program's text tells answers alone.

use crate::recording::{expected, Expected};
use crate::session::NO_FID;

pub trait Other {
    /// Follows the frame at that position, and gives its answer's number.
    fn step(&mut self, stretch: &[u8], at: usize) -> u8;

    /// A fid's path, or the refusal's number.
    fn path(&self, stretch: &[u8], fid: u32) -> Result<Vec<u8>, u8>;
}

/// The first frame whose answer differs, or after which a path does.
pub fn beside(stretch: &[u8], other: &mut impl Other) -> Option<String> {
    expected(stretch, &mut ()).find_map(|frame| {
        let answer = other.step(stretch, frame.at);
        match answer == frame.answer {
            true => path_differs(stretch, &frame, other),
            false => Some(format!(
                "answer {answer}, not {}, at {}",
                frame.answer, frame.at
            )),
        }
    })
}

/// Every known fid is asked for, and a few that may not be.
fn path_differs(stretch: &[u8], frame: &Expected, other: &impl Other) -> Option<String> {
    let others = (0..8).chain([NO_FID]);
    let mut fids = frame.paths.keys().copied().chain(others);
    fids.find_map(|fid| {
        let path = other.path(stretch, fid);
        let expected = frame.paths.get(&fid).cloned().ok_or(23);
        let shown = |path: Result<Vec<u8>, u8>| path.map(|path| path.escape_ascii().to_string());
        (path != expected).then(|| {
            let (path, expected) = (shown(path), shown(expected));
            format!("fid {fid}: {path:?}, not {expected:?}, at {}", frame.at)
        })
    })
}
