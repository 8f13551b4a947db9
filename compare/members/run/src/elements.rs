//! The elements of a walk, each asked for by its number.

use judge::Direction;
use ours::{Part, Told, QID_VALUES, SPAN_VALUES, UNWRITTEN};
use p9::draw::Draws;
use p9::flat::Value;
use p9::protocol::Qid;

use crate::compare::{differs, told, Outcome};
use crate::places::{altered, names};
use crate::theirs::with_values;

type Find = fn(&[u8], Part, usize) -> Told<SPAN_VALUES>;

/// A frame of a walk that the seller wrote.
pub fn elements(direction: Direction, frame: &[u8], draws: &mut Draws) -> Outcome {
    with_values(direction, frame, |record| match record.last() {
        Some(Value::Names(names)) => {
            let widths = names.iter().map(|name| 2 + name.len());
            let outcome = found(frame, ours::name_at, &widths.collect::<Vec<_>>(), 2);
            match outcome.differs() {
                true => outcome,
                false => broken(frame, names.len(), draws),
            }
        }
        Some(Value::Qids(qids)) => {
            let outcome = found(frame, ours::qid_at, &vec![13; qids.len()], 0);
            match outcome.differs() {
                true => outcome,
                false => read(frame, qids),
            }
        }
        _ => differs("no walk".into(), "a walk".into()),
    })
}

/// Where each element is, by the widths of those before it and of its count: the part is the end of
/// the frame. After the last one it is 15, outside of the bytes 9, in a part that is cut 14.
fn found(frame: &[u8], find: Find, widths: &[usize], before: usize) -> Outcome {
    let (len, count) = (widths.iter().sum(), widths.len());
    let part = Part {
        count: count as u16,
        start: frame.len() - len,
        len,
    };
    let outside = Part {
        len: len + 1,
        ..part
    };
    let mut asked = vec![(part, count, none(15)), (outside, count, none(9))];
    if count > 0 {
        let cut = Part {
            len: len - 1,
            ..part
        };
        asked.push((cut, 0, none(14)));
    }
    let mut start = part.start;
    for (i, width) in widths.iter().enumerate() {
        let span = [start + before, width - before].map(|n| n as u64);
        start += width;
        asked.push((part, i, (told(0, start), span)));
    }
    all_equal(
        asked
            .into_iter()
            .map(|(part, i, theirs)| (find(frame, part, i), theirs)),
    )
}

/// Where a Twalk's names start.
const NAMES: usize = 17;

/// The same names altered: if one of them is no text then, or they do not fill the part, each of them
/// is refused in the same way.
fn broken(frame: &[u8], count: usize, draws: &mut Draws) -> Outcome {
    let lent = [&frame[..NAMES], &altered(&frame[NAMES..], draws)].concat();
    let part = Part {
        count: count as u16,
        start: NAMES,
        len: lent.len() - NAMES,
    };
    match names(&lent[NAMES..], part.count, NAMES) {
        Ok(()) => Outcome::Accepted,
        Err((refusal, place)) => {
            let owed = (told(refusal, place), [UNWRITTEN; SPAN_VALUES]);
            all_equal((0..count).map(|i| (ours::name_at(&lent, part, i), owed)))
        }
    }
}

/// Refused, the lent values are as they were.
fn none<const N: usize>(refusal: u8) -> Told<N> {
    (told(refusal, 0), [UNWRITTEN; N])
}

/// The qids that end a frame.
fn read(frame: &[u8], qids: &[Qid]) -> Outcome {
    let start = frame.len() - 13 * qids.len();
    // Too near the end, at it, and after it.
    let ends = [frame.len().saturating_sub(12), frame.len(), usize::MAX];
    let cut = ends.map(|at| (ours::read_qid(frame, at), none(1)));
    let all = qids.iter().enumerate().map(|(i, qid)| {
        let at = start + 13 * i;
        let values: [u64; QID_VALUES] = [qid.ty.into(), qid.version.into(), qid.path];
        (ours::read_qid(frame, at), (told(0, at + 13), values))
    });
    all_equal(all.chain(cut))
}

fn all_equal<A: PartialEq + std::fmt::Debug>(mut pairs: impl Iterator<Item = (A, A)>) -> Outcome {
    match pairs.find(|(ours, theirs)| ours != theirs) {
        Some((ours, theirs)) => differs(format!("{ours:?}"), format!("{theirs:?}")),
        None => Outcome::Accepted,
    }
}
