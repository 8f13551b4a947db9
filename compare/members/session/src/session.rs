//! The second session: the rules of K7 over hash maps and the seller's records. It is written from the
//! paper alone, so that it can disagree with the proved one.

use std::collections::{BTreeMap, HashMap};

use p9::flat::{Flat, Value};
use p9::protocol::{P9String, Rmessage, Tmessage};

use crate::frames::RLERROR;
use crate::reading::Message;

pub const REQUESTS: usize = 64;
pub const FIDS: usize = 64;
pub const PLACES: usize = 256;

/// As the afid of a Tattach: there is none.
pub const NO_FID: u32 = u32::MAX;

/// The names from a root on. Without the last one they are the older place, so no place needs a
/// number, and there is only a count of those that were made.
pub type Place = Vec<Vec<u8>>;

#[derive(Clone, Copy, Debug, PartialEq, Eq)]
pub enum Refusal {
    TagOpen,
    NoRequest,
    FidInUse,
    FidUnknown,
    RequestsFull,
    FidsFull,
    PlacesFull,
}

impl Refusal {
    /// The paper's, which has one number for the three tables.
    pub fn number(self) -> u8 {
        match self {
            Self::TagOpen => 20,
            Self::NoRequest => 21,
            Self::FidInUse => 22,
            Self::FidUnknown => 23,
            Self::RequestsFull | Self::FidsFull | Self::PlacesFull => 24,
        }
    }
}

/// A request with the number of its type.
pub type Asked = (u8, Tmessage);

#[derive(Default)]
pub struct Session {
    pub open: HashMap<u16, Asked>,
    pub fids: HashMap<u32, Place>,
    /// How many were made since the last Rversion, whether or not a fid still names them.
    pub places: usize,
}

impl Session {
    pub fn step(&mut self, ty: u8, tag: u16, message: Message) -> Result<(), Refusal> {
        match message {
            Message::T(request) => self.ask(ty, tag, request),
            Message::R(reply) => self.answer(ty, tag, &reply),
        }
    }

    /// Every fid's path, to be compared with another session's.
    pub fn paths(&self) -> BTreeMap<u32, Vec<u8>> {
        let path = |(fid, place): (&u32, &Place)| (*fid, path(place));
        self.fids.iter().map(path).collect()
    }

    fn ask(&mut self, ty: u8, tag: u16, request: Tmessage) -> Result<(), Refusal> {
        if self.open.contains_key(&tag) {
            return Err(Refusal::TagOpen);
        }
        self.fids_fit(&request)?;
        if self.open.len() == REQUESTS {
            return Err(Refusal::RequestsFull);
        }
        self.open.insert(tag, (ty, request));
        Ok(())
    }

    /// 22, then 23: at the request, and again where its reply gives, moves or drops a fid.
    pub fn fids_fit(&self, request: &Tmessage) -> Result<(), Refusal> {
        let (new, known) = fids_of(request);
        if new.is_some_and(|fid| self.fids.contains_key(&fid)) {
            return Err(Refusal::FidInUse);
        }
        match known.is_some_and(|fid| !self.fids.contains_key(&fid)) {
            true => Err(Refusal::FidUnknown),
            false => Ok(()),
        }
    }

    /// A refused reply leaves its request open.
    fn answer(&mut self, ty: u8, tag: u16, reply: &Rmessage) -> Result<(), Refusal> {
        let asked = self.open.remove(&tag).ok_or(Refusal::NoRequest)?;
        let done = match ty == asked.0 + 1 || ty == RLERROR {
            true => self.finish(&asked.1, reply),
            false => Err(Refusal::NoRequest),
        };
        if done.is_err() {
            self.open.insert(tag, asked);
        }
        done
    }

    /// What a reply does beside closing its tag. Nothing is altered before the last check.
    fn finish(&mut self, request: &Tmessage, reply: &Rmessage) -> Result<(), Refusal> {
        match (request, reply) {
            (Tmessage::Clunk(_) | Tmessage::Remove(_), _) => self.drop_fid(request)?,
            (_, Rmessage::Lerror(_)) => {}
            (_, Rmessage::Version(_)) => *self = Self::default(),
            (Tmessage::Flush(flush), _) => drop(self.open.remove(&flush.oldtag)),
            (Tmessage::Auth(auth), _) => self.give(request, auth.afid, (Place::new(), 1))?,
            (Tmessage::Attach(attach), _) => self.give(request, attach.fid, (Place::new(), 1))?,
            (Tmessage::Walk(walk), Rmessage::Walk(reached))
                if reached.wqids.len() == walk.wnames.len() =>
            {
                let end = walked(self.place(walk.fid), &walk.wnames);
                self.give(request, walk.newfid, end)?;
            }
            (Tmessage::Lcreate(create), _) => {
                let mut place = self.place(create.fid);
                place.push(create.name.as_bytes().to_vec());
                self.give(request, create.fid, (place, 1))?;
            }
            (Tmessage::XattrWalk(walk), _) => {
                let place = self.place(walk.fid);
                self.give(request, walk.newfid, (place, 0))?;
            }
            _ => {}
        }
        Ok(())
    }

    fn drop_fid(&mut self, request: &Tmessage) -> Result<(), Refusal> {
        self.fids_fit(request)?;
        self.fids.remove(&first_fid(request));
        Ok(())
    }

    /// To the fid, a place and how many had to be made for it. A known fid has its row already.
    fn give(
        &mut self,
        request: &Tmessage,
        fid: u32,
        (place, made): (Place, usize),
    ) -> Result<(), Refusal> {
        self.fids_fit(request)?;
        if self.fids.len() == FIDS && !self.fids.contains_key(&fid) {
            return Err(Refusal::FidsFull);
        }
        if self.places + made > PLACES {
            return Err(Refusal::PlacesFull);
        }
        self.places += made;
        self.fids.insert(fid, place);
        Ok(())
    }

    /// Of an unknown fid none is asked for: `give` refuses first.
    fn place(&self, fid: u32) -> Place {
        self.fids.get(&fid).cloned().unwrap_or_default()
    }
}

/// The fid that has to be new, and the one that has to be known.
pub fn fids_of(request: &Tmessage) -> (Option<u32>, Option<u32>) {
    let but = |fid: u32, not: u32| Some(fid).filter(|fid| *fid != not);
    match request {
        Tmessage::Version(_) | Tmessage::Flush(_) => (None, None),
        Tmessage::Auth(auth) => (Some(auth.afid), None),
        Tmessage::Attach(attach) => (Some(attach.fid), but(attach.afid, NO_FID)),
        Tmessage::Walk(walk) => (but(walk.newfid, walk.fid), Some(walk.fid)),
        Tmessage::XattrWalk(walk) => (but(walk.newfid, walk.fid), Some(walk.fid)),
        other => (None, Some(first_fid(other))),
    }
}

/// The paper's table has a fid as the first field of every request but Tversion and Tflush.
fn first_fid(request: &Tmessage) -> u32 {
    let mut values = Vec::new();
    request.flat(&mut values);
    match values.first() {
        Some(Value::Number(fid, 4)) => *fid as u32,
        _ => unreachable!("no fid comes first"),
    }
}

/// Where a walk ends, and how many places it makes. A root stays where it is.
fn walked(mut place: Place, names: &[P9String]) -> (Place, usize) {
    let mut made = 0;
    for name in names {
        match name.as_bytes() {
            b".." => drop(place.pop()),
            name => {
                place.push(name.to_vec());
                made += 1;
            }
        }
    }
    (place, made)
}

fn path(place: &Place) -> Vec<u8> {
    let steps = place.iter().map(|name| [b"/", name.as_slice()].concat());
    steps.collect::<Vec<_>>().concat()
}
