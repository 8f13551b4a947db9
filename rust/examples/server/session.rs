//! What a client has asked for so far, and what each request does.

use std::collections::HashMap;
use std::fs::File;
use std::io;
use std::os::unix::fs::FileExt;
use std::path::Path;
use std::rc::Rc;

use sheafsledge::*;

use crate::files::{Errno, Listing, Place};

/// The longest frame in either direction, unless the client wants shorter ones.
pub const MOST: usize = 65_536;

/// No reply but those with data or entries is longer.
const LEAST: usize = 512;

/// As many names as a Twalk may have.
const MOST_NAMES: usize = 16;

const DIALECT: Text = Text::from_static("9P2000.L");

/// What a server answers that does not speak the client's dialect.
const UNKNOWN: Text = Text::from_static("unknown");

/// Of Tlopen's flags those that would write: for writing alone, for both, or truncated at once.
const WRITES: u32 = 0o1003;

type Answer<'d> = Result<Rmessage<'d>, Errno>;

/// A file that the client has a fid for, and what it is read from once it is open.
struct Named {
    place: Rc<Place>,
    open: Option<Open>,
}

enum Open {
    File(File),
    Directory(Listing),
}

pub struct Session {
    root: Rc<Place>,
    fids: HashMap<Fid, Named>,
    msize: usize,
}

impl Session {
    pub fn new(directory: &Path) -> io::Result<Self> {
        let root = Place::root(directory)?;
        Ok(Self {
            root,
            fids: HashMap::new(),
            msize: MOST,
        })
    }

    /// The longest frame that was agreed on.
    pub fn msize(&self) -> u32 {
        self.msize as u32
    }

    /// What a reply holds of data, entries or qids is put into `data`.
    pub fn answer<'d>(&mut self, request: Tmessage, data: &'d mut [u8]) -> Answer<'d> {
        match request {
            Tmessage::Version(version) => self.version(version),
            // Nobody has to prove who they are. Clients take this for just that, and go on.
            Tmessage::Auth(_) => Err(Errno::NO_ENTRY),
            Tmessage::Attach(attach) => self.attach(attach),
            // Each request is answered before the next is read, so that none is left to be flushed.
            Tmessage::Flush(_) => Ok(Rmessage::Flush),
            Tmessage::Walk(walk) => self.walk(walk, data),
            Tmessage::GetAttr(getattr) => self.getattr(getattr),
            Tmessage::Lopen(lopen) => self.lopen(lopen),
            Tmessage::Read(read) => self.read(read, data),
            Tmessage::Readdir(readdir) => self.readdir(readdir, data),
            Tmessage::Clunk(Tclunk { fid }) => self.clunk(fid).map(|()| Rmessage::Clunk),
            // The fid is gone, whether or not the file is.
            Tmessage::Remove(Tremove { fid }) => self.clunk(fid).and(Err(Errno::READ_ONLY)),
            _ => Err(Errno::NOT_SUPPORTED),
        }
    }

    /// Begins the session anew.
    fn version<'d>(&mut self, asked: Tversion) -> Answer<'d> {
        let msize = MOST.min(asked.msize as usize);
        if msize < LEAST {
            return Err(Errno::INVALID);
        }
        self.fids.clear();
        self.msize = msize;
        let version = match asked.version == DIALECT {
            true => DIALECT,
            false => UNKNOWN,
        };
        let msize = msize as u32;
        Ok(Rmessage::Version(Rversion { msize, version }))
    }

    /// There is one tree, whatever name the client has for it.
    fn attach<'d>(&mut self, asked: Tattach) -> Answer<'d> {
        if asked.afid != Fid::NONE {
            return Err(Errno::BAD_FID);
        }
        self.unused(asked.fid)?;
        let qid = self.root.qid()?;
        self.name(asked.fid, self.root.clone());
        Ok(Rmessage::Attach(Rattach { qid }))
    }

    /// As far as there are files of these names. The new fid is that of the last one, and only if
    /// all were there; where not even the first is, the request fails.
    fn walk<'d>(&mut self, asked: Twalk, data: &'d mut [u8]) -> Answer<'d> {
        let from = self.fid(asked.fid)?;
        let moves = asked.newfid == asked.fid;
        // From an open fid to a new one is well: diod's clients look at each file of a directory so.
        if moves && from.open.is_some() || asked.wnames.len() > MOST_NAMES {
            return Err(Errno::INVALID);
        }
        let mut place = from.place.clone();
        if !moves {
            self.unused(asked.newfid)?;
        }
        let mut qids = Vec::new();
        for name in asked.wnames {
            match place.walk(&name).and_then(|next| Ok((next.qid()?, next))) {
                Ok((qid, next)) => {
                    qids.push(qid);
                    place = next;
                }
                Err(error) if qids.is_empty() => return Err(error),
                Err(_) => break,
            }
        }
        if qids.len() == asked.wnames.len() {
            self.name(asked.newfid, place);
        }
        let wqids = Qids::gather(&qids, data)?;
        Ok(Rmessage::Walk(Rwalk { wqids }))
    }

    fn getattr<'d>(&self, asked: Tgetattr) -> Answer<'d> {
        let attributes = self.fid(asked.fid)?.place.attributes()?;
        Ok(Rmessage::GetAttr(attributes))
    }

    fn lopen<'d>(&mut self, asked: Tlopen) -> Answer<'d> {
        let fid = self.fids.get_mut(&asked.fid).ok_or(Errno::BAD_FID)?;
        if asked.flags & WRITES != 0 {
            return Err(Errno::READ_ONLY);
        }
        if fid.open.is_some() {
            return Err(Errno::INVALID);
        }
        let qid = fid.place.qid()?;
        fid.open = Some(match fid.place.is_directory()? {
            true => Open::Directory(fid.place.list()?),
            false => Open::File(fid.place.open()?),
        });
        Ok(Rmessage::Lopen(Rlopen { qid, iounit: 0 }))
    }

    fn read<'d>(&self, asked: Tread, data: &'d mut [u8]) -> Answer<'d> {
        let place = self.room(asked.count, data)?;
        let Some(Open::File(file)) = &self.fid(asked.fid)?.open else {
            return Err(Errno::BAD_FID);
        };
        let count = file.read_at(place, asked.offset)?;
        let data = Data(&place[..count]);
        Ok(Rmessage::Read(Rread { data }))
    }

    /// As many entries as there is room for, from the one whose number the last one gave.
    fn readdir<'d>(&self, asked: Treaddir, data: &'d mut [u8]) -> Answer<'d> {
        let place = self.room(asked.count, data)?;
        let Some(Open::Directory(listing)) = &self.fid(asked.fid)?.open else {
            return Err(Errno::BAD_FID);
        };
        let packed = Rreaddir::pack(place, asked.count, listing.from(asked.offset))?;
        match packed {
            // An answer without entries would say that there are no more.
            Packed {
                entries: 0,
                left: Some(_),
                ..
            } => Err(Refusal::NoRoom.into()),
            Packed { reply, .. } => Ok(Rmessage::Readdir(reply)),
        }
    }

    fn clunk(&mut self, fid: Fid) -> Result<(), Errno> {
        let gone = self.fids.remove(&fid);
        gone.map(drop).ok_or(Errno::BAD_FID)
    }

    /// So much of the data as was asked for and fits into a frame. An Rreaddir's fields are the same.
    fn room<'d>(&self, count: u32, data: &'d mut [u8]) -> Result<&'d mut [u8], Errno> {
        let (tag, msg) = (Tag::NONE, Rmessage::Read(Rread { data: Data(b"") }));
        let most = self.msize - Rframe { tag, msg }.byte_size()?;
        Ok(&mut data[..most.min(count as usize)])
    }

    fn fid(&self, fid: Fid) -> Result<&Named, Errno> {
        self.fids.get(&fid).ok_or(Errno::BAD_FID)
    }

    fn unused(&self, fid: Fid) -> Result<(), Errno> {
        match fid == Fid::NONE || self.fids.contains_key(&fid) {
            true => Err(Errno::BAD_FID),
            false => Ok(()),
        }
    }

    fn name(&mut self, fid: Fid, place: Rc<Place>) {
        self.fids.insert(fid, Named { place, open: None });
    }
}
