//! A directory entry: read at a place, and written again at another.

use judge::written;
use ours::{Told, ENTRY_VALUES, UNWRITTEN};
use p9::draw::Draws;
use p9::flat::Value;
use p9::protocol::{Dirent, WireFormat};

use crate::compare::{self, differs, first_difference, in_a_room, in_rooms, refused, Outcome};
use crate::pieces::{lent, Piece};
use crate::places::{self, altered, text};
use crate::theirs::refusal;

/// An entry's bytes before its name.
pub const BEFORE_THE_NAME: usize = 24;

/// What was refused is no entry to write, and its values are as they were.
pub fn entry(at: usize, bytes: &[u8], draws: &mut Draws) -> Outcome {
    let ours = ours::read_dirent(bytes, at);
    let mut rest = bytes.get(at..).unwrap_or_default();
    match Dirent::decode(&mut rest) {
        Ok(theirs) => {
            let next = bytes.len() - rest.len();
            let shown = bytes.get(at + BEFORE_THE_NAME..next) == Some(theirs.name.as_bytes());
            let told = (compare::told(0, next), flat(&theirs, at + BEFORE_THE_NAME));
            match ours == told && shown {
                true => write(&theirs, draws),
                false => differ(ours, told),
            }
        }
        Err(error) => {
            let refusal = refusal(&error);
            let place = places::in_an_entry(bytes, at.saturating_add(BEFORE_THE_NAME), refusal);
            let told = (compare::told(refusal, place), [UNWRITTEN; ENTRY_VALUES]);
            match ours == told {
                true => Outcome::Refused,
                false => differ(ours, told),
            }
        }
    }
}

fn differ(ours: Told<ENTRY_VALUES>, theirs: Told<ENTRY_VALUES>) -> Outcome {
    differs(format!("{ours:?}"), format!("{theirs:?}"))
}

/// An entry's values, its name at a place of some bytes.
pub fn flat(entry: &Dirent, name: usize) -> [u64; ENTRY_VALUES] {
    let qid = &entry.qid;
    [
        u64::from(qid.ty),
        u64::from(qid.version),
        qid.path,
        entry.offset,
        u64::from(entry.ty),
        name as u64,
        entry.name.len() as u64,
    ]
}

/// From other bytes, at a place of an output; with a span that lies outside of them; and from bytes
/// that are altered, if they are no text then.
fn write(entry: &Dirent, draws: &mut Draws) -> Outcome {
    let (lent, places) = lent(&[Piece::from(Value::String(entry.name.as_bytes()))], draws);
    let flat = |name| flat(entry, name);
    let bytes = written(entry).expect("what the seller read the seller writes");
    let before = draws.below(40);
    let put = in_rooms(before, &bytes, draws, |out| {
        ours::write_dirent(out, before, &lent, &flat(places[0]))
    });
    let outside = flat(lent.len() - entry.name.len() + 1);
    let out_of_them = refused(9, 64, |out| ours::write_dirent(out, 0, &lent, &outside));
    let (start, len, altered) = (places[0], entry.name.len(), altered(&lent, draws));
    let broken = text(&altered[start..start + len], start).err().map(|why| {
        let values = flat(start);
        in_a_room(64, Err(why), |out| {
            ours::write_dirent(out, 0, &altered, &values)
        })
    });
    // A refusal that is the right one is still an entry that was read and written.
    match first_difference([out_of_them, put].into_iter().chain(broken)) {
        Outcome::Refused => Outcome::Accepted,
        outcome => outcome,
    }
}
