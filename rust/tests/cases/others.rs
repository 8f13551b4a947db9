//! Directory entries, walks, stretches and pairs.

use crate::{ended, listed, BEFORE};
use sheafsledge_sys::*;

/// The most rows that a table has here.
const ROWS: usize = 65_536;

/// A directory entry at a position, every value of it, and written again there if there is one.
pub fn entry(out: &mut [u8], at: usize, bytes: &[u8]) -> String {
    let mut values = [BEFORE; ENTRY_VALUES];
    let (from, count) = (bytes.as_ptr(), bytes.len());
    // SAFETY: pointer and count are a slice's, and the values are borrowed alone. The library is
    // proved to touch nothing else, and keeps neither.
    let read = unsafe { sheafsledge_read_dirent(from, count, at, &mut values) };
    let said = format!("{} {}", ended(read), listed(&values));
    if read.refusal != 0 {
        return said;
    }
    let (to, room) = (out.as_mut_ptr(), out.len());
    // SAFETY: as above; the output is borrowed alone, so that it overlaps nothing.
    let wrote = unsafe { sheafsledge_write_dirent(to, room, at, from, count, &values) };
    format!("{said} {}", ended(wrote))
}

/// The first three rows, 0 where none is given, and then the first of them over and over.
fn rows<const WIDTH: usize>(given: &[u64], count: u64) -> Vec<[u64; WIDTH]> {
    let row = |i: usize| {
        let number = |k| given.get(WIDTH * i + k).copied().unwrap_or(0);
        std::array::from_fn(number)
    };
    let all = (0..ROWS).map(|i| if i < 3 { row(i) } else { row(0) });
    all.take(count as usize).collect()
}

/// A Twalk from a table of so many spans. After the count a question may have the room.
pub fn names(out: &mut [u8], count: u64, given: &[u64], lent: &[u8]) -> String {
    let spans = rows::<2>(given.get(1..).unwrap_or(&[]), count);
    let spans: Vec<[usize; 2]> = spans.iter().map(|row| row.map(|n| n as usize)).collect();
    let (to, room, from, held) = (out.as_mut_ptr(), out.len(), lent.as_ptr(), lent.len());
    let (table, rows) = (spans.as_ptr(), spans.len());
    let (tag, fid, newfid) = (Tag(3), Fid(1), Fid(2));
    // SAFETY: as in `entry`; the rows are a slice's too.
    ended(unsafe { sheafsledge_write_twalk(to, room, from, held, tag, fid, newfid, table, rows) })
}

/// An Rwalk from a table of so many qids.
pub fn qids(out: &mut [u8], count: u64, given: &[u64]) -> String {
    let qid = |&[ty, version, path]: &[u64; 3]| Qid {
        ty: ty as u8,
        version: version as u32,
        path,
    };
    let qids: Vec<Qid> = rows::<3>(given, count).iter().map(qid).collect();
    let (to, room) = (out.as_mut_ptr(), out.len());
    // SAFETY: as in `names`.
    ended(unsafe { sheafsledge_write_rwalk(to, room, 3, qids.as_ptr(), qids.len()) })
}

/// Name or qid `i` of a vector: where it ends, and its span.
pub fn element(kind: &str, i: u64, count: u64, (start, len): (u64, u64), lent: &[u8]) -> String {
    let asked = match kind {
        "N" => sheafsledge_name_at,
        _ => sheafsledge_qid_at,
    };
    let (from, held, count) = (lent.as_ptr(), lent.len(), count as u16);
    let (start, len, i) = (start as usize, len as usize, i as usize);
    let mut span = [BEFORE; SPAN_VALUES];
    // SAFETY: as in `entry`.
    let found = unsafe { asked(from, held, count, start, len, i, &mut span) };
    format!("{} {}", ended(found), listed(&span))
}

/// What is at a position of a stretch.
pub fn step(at: usize, bytes: &[u8]) -> String {
    // SAFETY: as in `entry`.
    let step = unsafe { sheafsledge_frame_at(bytes.as_ptr(), bytes.len(), at) };
    let (held, ty, tag) = (u8::from(step.held), step.ty, step.tag);
    let ended = match step.refusal {
        0 => ended(step),
        _ => format!("{} {}", ended(step), step.place),
    };
    format!("{ended} {held} {ty} {tag}")
}

/// Whether a reply answers a request, each told by its type and its tag.
pub fn pairs((asked, asked_tag): (u64, u64), (given, given_tag): (u64, u64)) -> String {
    let (asked_tag, given_tag) = (Tag(asked_tag as u16), Tag(given_tag as u16));
    // SAFETY: numbers alone, and any are answered.
    let yes = unsafe { sheafsledge_answers(asked as u8, asked_tag, given as u8, given_tag) };
    u8::from(yes).to_string()
}
