//! A stretch listed in the lister's words, each frame answered by the seller's Rust. The walk from
//! frame to frame is the paper's, and none of it is the lister's own code.

use judge::refusal::digits;
use judge::stretch::whole;
use judge::{judge, Direction, Verdict};

pub fn list(stretch: &[u8]) -> Vec<String> {
    let mut lines = vec!["at size type tag answer tail".to_string()];
    let (mut at, mut frames) = (0, 0);
    loop {
        let left = &stretch[at..];
        if left.is_empty() {
            lines.push(format!("end {at} {frames}"));
            return lines;
        }
        match whole(left) {
            Ok(frame) => {
                lines.push(line(at, frame));
                at += frame.len();
                frames += 1;
            }
            Err(refusal) => {
                lines.push(format!("stop {at} {refusal}"));
                return lines;
            }
        }
    }
}

fn line(at: usize, frame: &[u8]) -> String {
    let (size, ty) = (frame.len(), frame[4]);
    let tag = u16::from_le_bytes([frame[5], frame[6]]);
    let direction = match ty % 2 {
        0 => Direction::T,
        _ => Direction::R,
    };
    let answer = match judge(direction, frame) {
        Verdict::Accepted(accepted) => format!("0 {}", size - accepted.used),
        Verdict::Refused { error, .. } => format!("{} -", digits(&error)),
        Verdict::Panicked { text } => format!("panicked {text:?}"),
    };
    format!("{at} {size} {ty} {tag} {answer}")
}
