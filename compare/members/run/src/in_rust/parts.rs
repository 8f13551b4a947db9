//! Parts of frames: directory entries, and the elements of walks, by their numbers and from tables.

use std::cell::Cell;

use judge::written;
use p9::draw::Draws;
use p9::protocol::{self as seller, WireFormat};
use sheafsledge::{
    write_rwalk, write_twalk, Data, Dirent, Fid, Names, Qid, Qids, Refusal, Rframe, Rmessage,
    Rreaddir, Rwalk, Tag, Tframe, Tmessage, Twalk, WalkHead,
};

use super::fields::Beside;
use super::{answer, found, put, their, unequal, Found, SOUND};
use crate::compare::in_a_room;
use crate::dirents::BEFORE_THE_NAME;
use crate::places::{altered, in_an_entry};
use crate::tables::{broken, spans};

pub fn entry(at: usize, bytes: &[u8], draws: &mut Draws) -> Found {
    let data = bytes.get(at..).unwrap_or_default();
    let mut rest = data;
    let theirs = seller::Dirent::decode(&mut rest);
    let ours = Dirent::decode(bytes, at);
    let next = ours.map(|(_, next)| next).ok();
    let after = theirs.is_ok().then(|| bytes.len() - rest.len());
    let ours = ours.map(|(entry, _)| entry);
    ours.difference(&theirs)
        .or_else(|| placed(bytes, at, ours.err()?))
        .or_else(|| unequal(&next, &after))
        .or_else(|| entries(data))
        .or_else(|| written_at(&theirs.ok()?, draws))
}

/// Which byte of the slice a refused entry tells of.
fn placed(bytes: &[u8], at: usize, ours: Refusal) -> Found {
    let theirs = in_an_entry(bytes, at.saturating_add(BEFORE_THE_NAME), ours.number());
    unequal(&ours.at().unwrap_or(0), &theirs)
}

/// The entries of an Rreaddir; and those that the seller reads, packed with a drawn count and room.
pub fn block(data: &[u8], draws: &mut Draws) -> Found {
    entries(data).or_else(|| {
        let (mut rest, mut theirs) = (data, Vec::new());
        while let (false, Ok(entry)) = (rest.is_empty(), seller::Dirent::decode(&mut rest)) {
            theirs.push(entry);
        }
        let limits = [(); 2].map(|()| draws.below(data.len() + 9));
        repacked(&theirs, limits)
    })
}

fn repacked(theirs: &[seller::Dirent], [count, room]: [usize; 2]) -> Found {
    let buffer = Cell::default();
    let made = |theirs| -> Dirent { Beside::made(theirs, &buffer) };
    let mut owed = Vec::new();
    let mut left = theirs.iter();
    let first = left.find(|entry| {
        let bytes = written(*entry).expect(SOUND);
        let fits = owed.len() + bytes.len() <= count.min(room);
        if fits {
            owed.extend(bytes);
        }
        !fits
    });
    let mut out = vec![0xee; room];
    let packed = Rreaddir::pack(&mut out, count as u32, theirs.iter().map(made));
    let told = packed.map(|packed| (packed.reply.data.to_vec(), packed.left.is_some()));
    let fits = theirs.len() - left.len() - usize::from(first.is_some());
    let entries = packed.map(|packed| packed.entries);
    unequal(&told, &Ok((owed, first.is_some())))
        .or_else(|| unequal(&entries, &Ok(fits)))
        .or_else(|| packed.ok()?.left?.difference(first?))
}

/// Those of an Rreaddir, up to the first that is refused.
fn entries(data: &[u8]) -> Found {
    let mut ours = Rreaddir { data: Data(data) }.entries();
    let mut rest = data;
    while !rest.is_empty() {
        let at = data.len() - rest.len();
        let theirs = seller::Dirent::decode(&mut rest);
        let found = match ours.next() {
            Some(ours) => ours
                .difference(&theirs)
                .or_else(|| placed(data, at, ours.err()?)),
            None => unequal(&"the end", &"an entry"),
        };
        if found.is_some() {
            return found;
        }
        if theirs.is_err() {
            break;
        }
    }
    unequal(&ours.next().is_some(), &false)
}

/// At a place of an output.
fn written_at(theirs: &seller::Dirent, draws: &mut Draws) -> Found {
    let ours: Dirent = Beside::made(theirs, &Cell::default());
    let bytes = written(theirs).expect(SOUND);
    let before = draws.below(40);
    put(before, &bytes, draws, |out| ours.encode(out, before))
        .or_else(|| unequal(&ours.byte_size(), &bytes.len()))
}

/// Each name of a Twalk by its number, and none after the last.
pub fn names(frame: &[u8]) -> Found {
    let theirs = their_twalk(frame).1.wnames;
    match Tframe::decode(frame).and_then(|read| read.frame.msg) {
        Ok(Tmessage::Walk(ours)) => {
            let mut all = 0..=theirs.len();
            all.find_map(|i| numbered(ours.wnames.get(i), theirs.get(i)))
        }
        _ => unequal(&"no walk", &"a walk"),
    }
}

/// The same of an Rwalk's qids.
pub fn qids(frame: &[u8]) -> Found {
    let theirs = their_rwalk(frame).1.wqids;
    match Rframe::decode(frame).map(|read| read.frame.msg) {
        Ok(Rmessage::Walk(ours)) => {
            let mut all = 0..=theirs.len();
            all.find_map(|i| numbered(ours.wqids.get(i), theirs.get(i)))
        }
        _ => unequal(&"no walk", &"a walk"),
    }
}

fn numbered<'a, T, O: Beside<'a, T>>(ours: Result<O, Refusal>, theirs: Option<&T>) -> Found {
    match (ours, theirs) {
        (Ok(ours), Some(theirs)) => ours.difference(theirs),
        (ours, theirs) => {
            let none = theirs.is_none().then_some(Refusal::NoSuchElement);
            unequal(&ours.err(), &none)
        }
    }
}

/// A Twalk written from a table of its names, and from names that stand each for itself.
pub fn twalk(frame: &[u8], draws: &mut Draws) -> Found {
    let (tag, theirs) = their_twalk(frame);
    let (fid, newfid) = (Fid(theirs.fid), Fid(theirs.newfid));
    let head = WalkHead { tag, fid, newfid };
    let names: Vec<&[u8]> = theirs.wnames.iter().map(|name| name.as_bytes()).collect();
    let (lent, rows) = spans(&names, draws);
    let from_table = put(0, frame, draws, |out| write_twalk(out, &lent, head, &rows));
    let altered = altered(&lent, draws);
    let refused = || {
        let why = broken(&altered, &rows)?;
        let write = |out: &mut [u8]| answer(write_twalk(out, &altered, head, &rows));
        found(in_a_room(frame.len(), Err(why), write))
    };
    from_table.or_else(refused).or_else(|| {
        let texts = names.iter().map(|name| std::str::from_utf8(name));
        let texts = texts.collect::<Result<Vec<_>, _>>().expect(SOUND);
        let wnames = Names::of(&texts).expect(SOUND);
        let walk = Twalk {
            fid,
            newfid,
            wnames,
        };
        let ours = Tframe {
            tag,
            msg: Ok(Tmessage::Walk(walk)),
        };
        put(0, frame, draws, |out| ours.encode(out))
            .or_else(|| unequal(&ours.byte_size(), &Ok(frame.len())))
    })
}

/// An Rwalk of its qids, by the function for tables and as a record.
pub fn rwalk(frame: &[u8], draws: &mut Draws) -> Found {
    let (tag, theirs) = their_rwalk(frame);
    let none = Cell::default();
    let qids = theirs.wqids.iter().map(|qid| Beside::made(qid, &none));
    let qids: Vec<Qid> = qids.collect();
    let from_table = put(0, frame, draws, |out| write_rwalk(out, tag, &qids));
    from_table.or_else(|| {
        let wqids = Qids::from(&qids[..]);
        let ours = Rframe {
            tag,
            msg: Rmessage::Walk(Rwalk { wqids }),
        };
        put(0, frame, draws, |out| ours.encode(out))
            .or_else(|| unequal(&ours.byte_size(), &Ok(frame.len())))
    })
}

/// A Twalk of more than sixteen names, gathered, as a record, and from a table. Names that are too
/// many are not looked at: a zero byte is in the first.
pub fn too_many_names(frame: &[u8]) -> Found {
    let (tag, theirs) = their_twalk(frame);
    let (fid, newfid) = (Fid(theirs.fid), Fid(theirs.newfid));
    let head = WalkHead { tag, fid, newfid };
    let count = theirs.wnames.len();
    let (names, rows, mut out) = (vec!["\0"; count], vec![[1, 1]; count], [0; 9]);
    let refused = [
        Names::of(&names).err(),
        Names::gather(&names, &mut [0; 9]).err(),
        write_twalk(&mut out, b"", head, &rows).err(),
    ];
    unequal(&refused, &[Some(Refusal::TooManyElements); 3]).or_else(|| unequal(&out, &[0; 9]))
}

/// The same of an Rwalk's qids.
pub fn too_many_qids(frame: &[u8]) -> Found {
    let (tag, theirs) = their_rwalk(frame);
    let (qids, mut out) = (vec![Qid::default(); theirs.wqids.len()], [0; 9]);
    let wqids = Qids::from(&qids[..]);
    let ours = Rframe {
        tag,
        msg: Rmessage::Walk(Rwalk { wqids }),
    };
    let refused = [
        Qids::gather(&qids, &mut [0; 9]).err(),
        ours.encode(&mut out).err(),
        ours.byte_size().err(),
        write_rwalk(&mut out, tag, &qids).err(),
    ];
    unequal(&refused, &[Some(Refusal::TooManyElements); 4]).or_else(|| unequal(&out, &[0; 9]))
}

fn their_twalk(frame: &[u8]) -> (Tag, seller::Twalk) {
    match their(frame) {
        seller::Tframe {
            tag,
            msg: Ok(seller::Tmessage::Walk(walk)),
        } => (Tag(tag), walk),
        _ => unreachable!("a Twalk is asked for its names"),
    }
}

fn their_rwalk(frame: &[u8]) -> (Tag, seller::Rwalk) {
    match their(frame) {
        seller::Rframe {
            tag,
            msg: seller::Rmessage::Walk(walk),
        } => (Tag(tag), walk),
        _ => unreachable!("an Rwalk is asked for its qids"),
    }
}
