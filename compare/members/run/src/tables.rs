//! Walks written from tables: a Twalk's names as spans of lent bytes, an Rwalk's qids as they are.

use judge::Direction;
use ours::Qid;
use p9::draw::Draws;
use p9::flat::Value;

use crate::compare::{differs, first_difference, in_a_room, in_rooms, Outcome};
use crate::pieces::{lent, Piece};
use crate::places::{altered, text, Why};
use crate::theirs::{qid, with_values};

/// A frame of a walk that the seller wrote, written again.
pub fn table(direction: Direction, frame: &[u8], draws: &mut Draws) -> Outcome {
    let tag = u16::from_le_bytes([frame[5], frame[6]]);
    with_values(direction, frame, |record| match record {
        [Value::Number(fid, _), Value::Number(newfid, _), Value::Names(names)] => {
            let head = (tag, *fid as u32, *newfid as u32);
            let names: Vec<&[u8]> = names.iter().map(|name| name.as_bytes()).collect();
            twalk(frame, head, &names, draws)
        }
        [Value::Qids(qids)] => {
            let qids: Vec<Qid> = qids.iter().map(qid).collect();
            in_rooms(0, frame, draws, |out| ours::write_rwalk(out, tag, &qids))
        }
        _ => differs("no walk".into(), "a walk".into()),
    })
}

fn twalk(frame: &[u8], head: ours::Head, names: &[&[u8]], draws: &mut Draws) -> Outcome {
    let (lent, rows) = spans(names, draws);
    let put = in_rooms(0, frame, draws, |out| {
        ours::write_twalk(out, &lent, head, &rows)
    });
    let altered = altered(&lent, draws);
    let broken = broken(&altered, &rows).map(|why| {
        in_a_room(frame.len(), Err(why), |out| {
            ours::write_twalk(out, &altered, head, &rows)
        })
    });
    // A refusal that is the right one is still a walk that was written.
    match first_difference([put].into_iter().chain(broken)) {
        Outcome::Refused => Outcome::Accepted,
        outcome => outcome,
    }
}

/// Why the first name of a table that is refused is.
pub fn broken(lent: &[u8], rows: &[[usize; 2]]) -> Option<Why> {
    rows.iter()
        .find_map(|[start, len]| text(&lent[*start..start + len], *start).err())
}

/// Bytes to lend that have each name somewhere, and a row for each.
pub fn spans(names: &[&[u8]], draws: &mut Draws) -> (Vec<u8>, Vec<[usize; 2]>) {
    let pieces: Vec<Piece> = names
        .iter()
        .map(|name| Piece::from(Value::String(name)))
        .collect();
    let (lent, places) = lent(&pieces, draws);
    let rows = places
        .iter()
        .zip(names)
        .map(|(start, name)| [*start, name.len()])
        .collect();
    (lent, rows)
}
