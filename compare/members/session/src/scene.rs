//! What is true of a frame in the session that it comes to, before it is followed. Facts are words for
//! the tally alone; no answer is taken from here.

use std::collections::HashSet;

use p9::protocol::{Rmessage, Tmessage};

use crate::reading::Message;
use crate::session::{fids_of, Asked, Session, FIDS, PLACES, REQUESTS};

/// What happened since the last Rversion.
#[derive(Default)]
pub struct History {
    /// Tags with a reply that was refused by its fids or a full table.
    pub kept: HashSet<u16>,
    pub fids_full: bool,
    pub requests_full: bool,
    pub dropped: bool,
}

pub struct Scene<'a> {
    pub session: &'a Session,
    pub history: &'a History,
    pub tag: u16,
    pub message: &'a Message,
    pub tail: usize,
}

impl<'a> Scene<'a> {
    pub fn request(&self) -> Option<&'a Tmessage> {
        match self.message {
            Message::T(request) => Some(request),
            Message::R(_) => None,
        }
    }

    pub fn open(&self) -> Option<&'a Asked> {
        self.session.open.get(&self.tag)
    }

    /// The open request and the reply.
    pub fn reply(&self) -> Option<(&'a Tmessage, &'a Rmessage)> {
        match self.message {
            Message::T(_) => None,
            Message::R(reply) => self.open().map(|asked| (&asked.1, reply)),
        }
    }

    /// The request itself, or the one that is replied to.
    fn asked(&self) -> Option<&'a Tmessage> {
        self.request().or(self.reply().map(|pair| pair.0))
    }

    pub fn asks(&self) -> bool {
        self.request().is_some()
    }

    pub fn replies(&self) -> bool {
        self.reply().is_some()
    }

    pub fn fails(&self) -> bool {
        matches!(self.reply(), Some((_, Rmessage::Lerror(_))))
    }

    pub fn known(&self, fid: u32) -> bool {
        self.session.fids.contains_key(&fid)
    }

    /// A fid that has to be new is in use.
    pub fn taken(&self) -> bool {
        let new = self.asked().and_then(|request| fids_of(request).0);
        new.is_some_and(|fid| self.known(fid))
    }

    /// A fid that has to be known is not.
    pub fn unknown(&self) -> bool {
        let known = self.asked().and_then(|request| fids_of(request).1);
        known.is_some_and(|fid| !self.known(fid))
    }

    pub fn requests_full(&self) -> bool {
        self.session.open.len() == REQUESTS
    }

    pub fn fids_full(&self) -> bool {
        self.session.fids.len() == FIDS
    }

    pub fn places_full(&self) -> bool {
        self.session.places == PLACES
    }

    /// The names of a walk that is replied to with as many qids.
    pub fn whole_walk(&self) -> Option<Vec<&'a [u8]>> {
        match self.reply()? {
            (Tmessage::Walk(walk), Rmessage::Walk(reached)) => {
                let names = walk.wnames.iter().map(|name| name.as_bytes());
                (walk.wnames.len() == reached.wqids.len()).then(|| names.collect())
            }
            _ => None,
        }
    }

    pub fn walks_by(&self, name: &[u8]) -> bool {
        self.whole_walk().is_some_and(|names| names.contains(&name))
    }

    /// A walk whose first step is `..`, from a root or not.
    pub fn walks_up_from(&self, root: bool) -> bool {
        let Some((Tmessage::Walk(walk), _)) = self.reply() else {
            return false;
        };
        let up = self.whole_walk().and_then(|names| names.first().copied()) == Some(b"..");
        let from = self.session.fids.get(&walk.fid);
        up && from.is_some_and(|place| place.is_empty() == root)
    }

    /// Whether a walk's qids are fewer than its names, or more.
    pub fn walk_is(&self, other: std::cmp::Ordering) -> bool {
        match self.reply() {
            Some((Tmessage::Walk(walk), Rmessage::Walk(reached))) => {
                reached.wqids.len().cmp(&walk.wnames.len()) == other
            }
            _ => false,
        }
    }

    /// A walk's or xattrwalk's newfid is its fid.
    pub fn onto_itself(&self) -> bool {
        match self.asked() {
            Some(Tmessage::Walk(walk)) => walk.fid == walk.newfid,
            Some(Tmessage::XattrWalk(walk)) => walk.fid == walk.newfid,
            _ => false,
        }
    }

    /// The fid that the reply would give or move, and how many places that takes.
    pub fn gives(&self) -> Option<(u32, usize)> {
        match self.reply()? {
            (_, Rmessage::Lerror(_)) => None,
            (Tmessage::Auth(auth), Rmessage::Auth(_)) => Some((auth.afid, 1)),
            (Tmessage::Attach(attach), Rmessage::Attach(_)) => Some((attach.fid, 1)),
            (Tmessage::Lcreate(create), Rmessage::Lcreate(_)) => Some((create.fid, 1)),
            (Tmessage::XattrWalk(walk), Rmessage::XattrWalk(_)) => Some((walk.newfid, 0)),
            (Tmessage::Walk(walk), _) => {
                let names = self.whole_walk()?;
                let made = names.iter().filter(|name| **name != b"..").count();
                Some((walk.newfid, made))
            }
            _ => None,
        }
    }

    /// The reply would give a fid that has no row yet.
    pub fn gives_new(&self) -> bool {
        self.gives().is_some_and(|(fid, _)| !self.known(fid))
    }

    /// The reply would make so many places, more than none.
    pub fn makes(&self) -> usize {
        self.gives().map_or(0, |(_, made)| made)
    }

    pub fn left(&self) -> usize {
        PLACES - self.session.places
    }

    /// The old tag of a flush that is asked or replied to.
    pub fn oldtag(&self) -> Option<u16> {
        match self.asked()? {
            Tmessage::Flush(flush) => Some(flush.oldtag),
            _ => None,
        }
    }

    pub fn old_is_open(&self) -> bool {
        let open = |old: u16| old != self.tag && self.session.open.contains_key(&old);
        self.oldtag().is_some_and(open)
    }

    pub fn afid(&self) -> Option<u32> {
        match self.request()? {
            Tmessage::Attach(attach) => Some(attach.afid),
            _ => None,
        }
    }

    /// The other fid of a Trename, a Tlink or a Trenameat, which nobody looks up.
    pub fn other_fid(&self) -> Option<u32> {
        match self.request()? {
            Tmessage::Rename(rename) => Some(rename.dfid),
            Tmessage::Link(link) => Some(link.fid),
            Tmessage::RenameAt(rename) => Some(rename.newdirfid),
            _ => None,
        }
    }

    pub fn empties(&self) -> bool {
        matches!(
            self.reply(),
            Some((Tmessage::Version(_), Rmessage::Version(_)))
        )
    }

    /// A reply that neither gives nor moves nor drops a fid.
    pub fn only_closes(&self) -> bool {
        let drops = |pair: (&Tmessage, &Rmessage)| {
            matches!(pair.0, Tmessage::Clunk(_) | Tmessage::Remove(_))
        };
        self.gives().is_none() && self.reply().is_some_and(|pair| !drops(pair))
    }

    pub fn creates_up(&self) -> bool {
        match self.reply() {
            Some((Tmessage::Lcreate(create), Rmessage::Lcreate(_))) => {
                create.name.as_bytes() == b".."
            }
            _ => false,
        }
    }
}
