//! A directory block: listed from its first byte on, asked where no entry starts, and packed again from
//! a table.

use judge::written;
use ours::{Packed, ENTRY_VALUES, UNWRITTEN};
use p9::draw::Draws;
use p9::flat::Value;
use p9::protocol::{Dirent, WireFormat};

use crate::compare::{differs, Outcome, BLANK};
use crate::dirents::{flat, BEFORE_THE_NAME};
use crate::pieces::{lent, Piece};
use crate::places::{self, altered, text, Why};
use crate::theirs::refusal;

/// What is at a position: its values and the next position, the end, or why there is no entry.
type Step = Result<Option<([u64; ENTRY_VALUES], usize)>, Why>;

pub fn block(bytes: &[u8], draws: &mut Draws) -> Outcome {
    let (mut at, mut entries) = (0, Vec::new());
    let last = loop {
        match beside(bytes, at, &mut entries) {
            Ok(Ok(Some((_, next)))) => at = next,
            Ok(last) => break last,
            Err(outcome) => return outcome,
        }
    };
    // Anywhere, the end and after it too; the entries there are none of the block's.
    for _ in 0..3 {
        let at = draws.below(bytes.len() + 3);
        if let Err(outcome) = beside(bytes, at, &mut Vec::new()) {
            return outcome;
        }
    }
    match packed(&entries, draws) {
        Some(outcome) => outcome,
        None if last.is_err() => Outcome::Refused,
        None => Outcome::Accepted,
    }
}

/// What both say of a position. An entry of the seller's goes to the others.
fn beside(bytes: &[u8], at: usize, entries: &mut Vec<Dirent>) -> Result<Step, Outcome> {
    let mut values = [UNWRITTEN; ENTRY_VALUES];
    let step = ours::entry_at(bytes, at, &mut values);
    let ours = match (step.refusal, step.held) {
        (0, true) => Ok(Some((values, step.place))),
        (0, false) => Ok(None),
        (refusal, _) => Err((refusal, step.place)),
    };
    let theirs = theirs(bytes, at, entries);
    // Where there is no entry, the place is the position and the values stay.
    let stays = matches!(ours, Ok(Some(_))) || values == [UNWRITTEN; ENTRY_VALUES];
    let ends = ours != Ok(None) || step.place == at;
    match ours == theirs && stays && ends && (step.ty, step.tag) == (0, 0) {
        true => Ok(ours),
        false => Err(differs(
            format!("{step:?} {values:?}"),
            format!("{theirs:?}"),
        )),
    }
}

/// The seller's crate has no blocks: at the end there is nothing to decode.
fn theirs(bytes: &[u8], at: usize, entries: &mut Vec<Dirent>) -> Step {
    if at == bytes.len() {
        return Ok(None);
    }
    let mut rest = bytes.get(at..).unwrap_or_default();
    match Dirent::decode(&mut rest) {
        Ok(entry) => {
            let values = flat(&entry, at + BEFORE_THE_NAME);
            entries.push(entry);
            Ok(Some((values, bytes.len() - rest.len())))
        }
        Err(error) => {
            let refusal = refusal(&error);
            let start = at.saturating_add(BEFORE_THE_NAME);
            Err((refusal, places::in_an_entry(bytes, start, refusal)))
        }
    }
}

/// From other bytes, with counts and rooms around each entry's end; and from bytes that are altered.
fn packed(entries: &[Dirent], draws: &mut Draws) -> Option<Outcome> {
    let pieces = entries
        .iter()
        .map(|entry| Value::String(entry.name.as_bytes()));
    let (lent, places) = lent(&pieces.map(Piece::from).collect::<Vec<_>>(), draws);
    let rows = entries
        .iter()
        .zip(places)
        .map(|(entry, at)| flat(entry, at));
    let rows: Vec<_> = rows.collect();
    let bytes = entries
        .iter()
        .map(|entry| written(entry).expect("what the seller read"));
    let bytes: Vec<_> = bytes.collect();
    let mut limits = vec![0, 1 << 20];
    let mut end = 0;
    for entry in &bytes {
        end += entry.len();
        limits.extend([end - 1, end, end + 1]);
    }
    let altered = altered(&lent, draws);
    limits.iter().find_map(|limit| {
        let spare = limit + 1 + draws.below(50);
        let limits = [(*limit, spare), (spare, *limit), (*limit, *limit)];
        let (count, room) = limits[draws.below(3)];
        [&lent, &altered]
            .into_iter()
            .find_map(|lent| pack(count, room.min(end + 60), lent, &rows, &bytes))
    })
}

/// One packing, beside the seller's entries in a loop, which looks at a name before its fit.
fn pack(
    count: usize,
    room: usize,
    lent: &[u8],
    rows: &[[u64; ENTRY_VALUES]],
    bytes: &[Vec<u8>],
) -> Option<Outcome> {
    let mut out = vec![BLANK; room];
    let ours = ours::pack(&mut out, count as u32, lent, rows);
    let (mut owed, mut theirs) = (vec![BLANK; room], Packed::default());
    for (row, bytes) in rows.iter().zip(bytes) {
        let (start, len) = (row[5] as usize, row[6] as usize);
        let name = &lent[start..start + len];
        if let Err((refusal, place)) = text(name, start) {
            let entries = 0;
            (theirs, owed) = (
                Packed {
                    refusal,
                    entries,
                    place,
                },
                vec![BLANK; room],
            );
            break;
        }
        let end = theirs.place + bytes.len();
        if end > count.min(room) {
            break;
        }
        owed[theirs.place..end].copy_from_slice(bytes);
        owed[end - len..end].copy_from_slice(name);
        theirs.entries += 1;
        theirs.place = end;
    }
    let said = |packed: Packed, out: &[u8]| format!("{packed:?} {}", p9::show::hex(out));
    if ours != theirs || out != owed {
        return Some(differs(said(ours, &out), said(theirs, &owed)));
    }
    // The seller reads what was packed.
    let mut rest = &out[..if ours.refusal == 0 { ours.place } else { 0 }];
    for (i, row) in rows[..ours.entries].iter().enumerate() {
        let (start, len) = (row[5] as usize, row[6] as usize);
        let read = Dirent::decode(&mut rest);
        let same = read.is_ok_and(|entry| {
            let values = flat(&entry, start);
            values == *row && entry.name.as_bytes() == &lent[start..start + len]
        });
        if !same {
            return Some(differs(
                said(ours, &out),
                format!("entry {i} is read otherwise"),
            ));
        }
    }
    (!rest.is_empty()).then(|| differs(said(ours, &out), "more entries".into()))
}
