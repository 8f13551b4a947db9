//! Drawn traces. Each is followed while it is drawn, so that what comes next can meet what is open,
//! known or full; it goes by phases, each of which fills another table.

use judge::cases::header;
use judge::Direction;
use p9::draw::{Draws, MOST_ELEMENTS};
use p9::protocol::Tmessage;

use crate::frames::{
    all_types, drawn, drawn_name, flush, harmed, lcreate, resized, rwalk, tailed, walk, with_fids,
    RLERROR, TATTACH, TAUTH, TCLUNK, TFLUSH, TLCREATE, TREMOVE, TVERSION, TWALK, TXATTRWALK,
};
use crate::recording::{step, LONGEST, TRAILER};
use crate::session::{fids_of, Session, NO_FID, PLACES, REQUESTS};

#[derive(Clone, Copy)]
struct Phase {
    /// It has at most so many frames.
    most: usize,
    /// Of sixteen, so many are requests.
    asks: usize,
    /// So many tags and fids are drawn from, beside the greatest number.
    tags: usize,
    fids: usize,
    /// A walk's most names.
    names: usize,
    /// What is asked three times out of four, if there are any.
    often: &'static [u8],
}

const PHASES: [Phase; 8] = [
    // Few of all, so that requests meet that are open at once.
    phase([150, 8, 12, 5, 3], &[]),
    phase(
        [150, 9, 12, 4, 2],
        &[TATTACH, TAUTH, TWALK, TXATTRWALK, TLCREATE, TCLUNK, TREMOVE],
    ),
    // Requests fill; then they are answered.
    phase([200, 15, 100, 20, 3], &[]),
    phase([200, 3, 100, 20, 3], &[]),
    // Fids fill; then they are dropped.
    phase([600, 7, 60, 100, 1], &[TATTACH, TAUTH, TWALK, TXATTRWALK]),
    phase([200, 8, 60, 100, 1], &[TCLUNK, TREMOVE]),
    // Places fill; then most of what is asked needs none.
    phase([500, 8, 60, 12, MOST_ELEMENTS], &[TWALK, TWALK, TLCREATE]),
    phase(
        [300, 8, 60, 30, 2],
        &[TAUTH, TATTACH, TWALK, TWALK, TXATTRWALK],
    ),
];

const fn phase([most, asks, tags, fids, names]: [usize; 5], often: &'static [u8]) -> Phase {
    Phase {
        most,
        asks,
        tags,
        fids,
        names,
        often,
    }
}

struct Trace<'a> {
    bytes: Vec<u8>,
    session: Session,
    phase: Phase,
    draws: &'a mut Draws,
}

/// Every fourth is as long as a file may be.
pub fn stretch(turn: usize, draws: &mut Draws) -> Vec<u8> {
    let most = LONGEST - TRAILER;
    let long = match turn % 4 {
        0 => most,
        _ => draws.below(most + 1),
    };
    let mut trace = Trace {
        bytes: Vec::new(),
        session: Session::default(),
        phase: PHASES[0],
        draws,
    };
    while trace.go_on(long) {}
    trace.fill(long);
    trace.bytes
}

impl Trace<'_> {
    /// A phase, unless it is cut off where the trace is to end.
    fn go_on(&mut self, long: usize) -> bool {
        self.phase = self.draws.one_of(&PHASES);
        let full = self.session.open.len() == REQUESTS || self.session.places == PLACES;
        if self.once_in(if full { 3 } else { 8 }) {
            let tag = self.free_tag();
            for ty in [TVERSION, TVERSION + 1] {
                let frame = drawn(ty, tag, self.draws);
                if !self.push(frame, long) {
                    return false;
                }
            }
        }
        for _ in 0..self.phase.most / 2 + self.draws.below(self.phase.most / 2) {
            let frame = self.frame();
            if !self.push(frame, long) {
                return false;
            }
        }
        true
    }

    /// A frame of any type that fills what is left.
    fn fill(&mut self, long: usize) {
        let left = long - self.bytes.len();
        if left >= 7 {
            let tag = self.open_tag();
            let mut frame = header(left as u32, self.draws.byte(), tag);
            frame.extend(self.draws.bytes(left - 7));
            self.push(frame, long);
        }
    }

    /// If what is left after the frame is nothing, or has room for one more.
    fn push(&mut self, frame: Vec<u8>, long: usize) -> bool {
        let end = self.bytes.len() + frame.len();
        let fits = end == long || end + 7 <= long;
        if fits {
            step(&mut self.session, &frame, &mut ());
            self.bytes.extend(frame);
        }
        fits
    }

    fn frame(&mut self) -> Vec<u8> {
        let frame = match self.draws.below(16) < self.phase.asks {
            true => self.request(),
            false => self.reply(),
        };
        match self.draws.below(20) {
            0 => harmed(frame, self.draws),
            1 => tailed(frame, self.draws),
            _ => resized(frame),
        }
    }

    fn request(&mut self) -> Vec<u8> {
        let tag = match self.once_in(12) {
            true => self.open_tag(),
            false => self.free_tag(),
        };
        let ty = self.request_type();
        match ty {
            TVERSION => drawn(ty, tag, self.draws),
            TAUTH => with_fids(ty, tag, &[self.new_fid()], self.draws),
            TATTACH => with_fids(ty, tag, &[self.new_fid(), self.afid()], self.draws),
            TFLUSH => flush(tag, self.oldtag(tag)),
            TXATTRWALK => {
                let fid = self.known_fid();
                with_fids(ty, tag, &[fid, self.newfid(fid)], self.draws)
            }
            TWALK => {
                let (fid, count) = (self.known_fid(), self.draws.below(self.phase.names + 1));
                let names = (0..count).map(|_| drawn_name(self.draws)).collect();
                walk(tag, fid, self.newfid(fid), names)
            }
            TLCREATE => lcreate(tag, self.known_fid(), drawn_name(self.draws)),
            _ => with_fids(ty, tag, &[self.known_fid()], self.draws),
        }
    }

    fn request_type(&mut self) -> u8 {
        let often = self.phase.often;
        if self.session.fids.is_empty() && self.draws.below(2) == 0 {
            return TATTACH;
        }
        match often.is_empty() || self.draws.below(4) == 0 {
            true => self.draws.one_of(&all_types(Direction::T)),
            false => self.draws.one_of(often),
        }
    }

    /// Mostly one that answers an open request.
    fn reply(&mut self) -> Vec<u8> {
        let tag = match self.once_in(14) {
            true => self.free_tag(),
            false => self.open_tag(),
        };
        let Some((asked, request)) = self.session.open.get(&tag) else {
            let ty = self.draws.one_of(&all_types(Direction::R));
            return drawn(ty, tag, self.draws);
        };
        let names = match request {
            Tmessage::Walk(walk) => Some(walk.wnames.len()),
            _ => None,
        };
        let right = asked + 1;
        // An Rversion empties what the phases fill, and a reply that is refused fills the requests.
        let errors = match self.session.fids_fit(request) {
            _ if *asked == TVERSION => 14,
            Ok(()) => 3,
            Err(_) => 9,
        };
        match self.draws.below(16) {
            0 => drawn(self.draws.one_of(&all_types(Direction::R)), tag, self.draws),
            n if n <= errors => drawn(RLERROR, tag, self.draws),
            _ => match names {
                Some(names) => rwalk(tag, self.qids(names), self.draws),
                None => drawn(right, tag, self.draws),
            },
        }
    }

    /// Mostly as many as there are names.
    fn qids(&mut self, names: usize) -> usize {
        match self.draws.below(8) {
            0 => self.draws.below(names + 1),
            1 => (names + 1).min(MOST_ELEMENTS),
            _ => names,
        }
    }

    fn once_in(&mut self, times: usize) -> bool {
        self.draws.below(times) == 0
    }

    fn any_tag(&mut self) -> u16 {
        match self.draws.below(self.phase.tags + 1) {
            0 => u16::MAX,
            tag => tag as u16,
        }
    }

    fn any_fid(&mut self) -> u32 {
        match self.draws.below(self.phase.fids + 1) {
            0 => NO_FID,
            fid => fid as u32,
        }
    }

    /// Any one, if these are all open.
    fn free_tag(&mut self) -> u16 {
        let tried: Vec<u16> = (0..20).map(|_| self.any_tag()).collect();
        let free = |tag: &&u16| !self.session.open.contains_key(tag);
        *tried.iter().find(free).unwrap_or(&tried[0])
    }

    /// In order, since a map's own differs from run to run.
    fn open_tag(&mut self) -> u16 {
        let mut open: Vec<u16> = self.session.open.keys().copied().collect();
        open.sort_unstable();
        match open.is_empty() {
            true => self.any_tag(),
            false => self.draws.one_of(&open),
        }
    }

    fn oldtag(&mut self, own: u16) -> u16 {
        match self.draws.below(8) {
            0 => own,
            1 => self.any_tag(),
            _ => self.open_tag(),
        }
    }

    fn known_fid(&mut self) -> u32 {
        let mut known: Vec<u32> = self.session.fids.keys().copied().collect();
        known.sort_unstable();
        match known.is_empty() || self.once_in(14) {
            true => self.any_fid(),
            false => self.draws.one_of(&known),
        }
    }

    /// Now and then one that an open request is to give, or any.
    fn new_fid(&mut self) -> u32 {
        let tried: Vec<u32> = (0..20).map(|_| self.any_fid()).collect();
        let tag = self.open_tag();
        let asked = self.session.open.get(&tag);
        let wanted = asked.and_then(|(_, request)| fids_of(request).0);
        let new = |fid: &&u32| !self.session.fids.contains_key(fid);
        let new = tried.iter().find(new).copied();
        let fid = match self.draws.below(24) {
            0 => None,
            1..=4 => wanted,
            _ => new,
        };
        fid.unwrap_or(tried[0])
    }

    fn newfid(&mut self, fid: u32) -> u32 {
        match self.once_in(4) {
            true => fid,
            false => self.new_fid(),
        }
    }

    fn afid(&mut self) -> u32 {
        match self.draws.below(5) {
            0 => self.known_fid(),
            1 => self.any_fid(),
            _ => NO_FID,
        }
    }
}
