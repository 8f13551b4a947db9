//! What every run has to meet: a fact of a frame and the answer that goes with it, by the paper.

use std::cmp::Ordering;

use p9::protocol::Tmessage;

use crate::scene::Scene;
use crate::session::NO_FID;

pub struct Rule {
    pub name: &'static str,
    pub answer: u8,
    pub fact: fn(&Scene) -> bool,
}

const fn rule(name: &'static str, answer: u8, fact: fn(&Scene) -> bool) -> Rule {
    Rule { name, answer, fact }
}

#[rustfmt::skip]
pub const RULES: &[Rule] = &[
    // The order of a request's checks.
    rule("tag open, and fid in use", 20, |s| s.asks() && s.open().is_some() && s.taken()),
    rule("tag open, and fid unknown", 20, |s| s.asks() && s.open().is_some() && s.unknown()),
    rule("tag open, and requests full", 20, |s| s.asks() && s.open().is_some() && s.requests_full()),
    rule("newfid in use, and fid unknown", 22, |s| s.asks() && s.unknown()),
    rule("newfid in use, and requests full", 22, |s| s.asks() && s.requests_full()),
    rule("fid unknown, and requests full", 23, |s| s.asks() && s.requests_full()),
    // Which fids and tags it looks up.
    rule("attach without an afid", 0, |s| s.afid() == Some(NO_FID) && !s.known(NO_FID)),
    rule("attach without an afid, that fid known", 0, |s| s.afid() == Some(NO_FID) && s.known(NO_FID)),
    rule("attach with a known afid", 0, |s| s.afid().is_some_and(|afid| afid != NO_FID)),
    rule("attach with an unknown afid", 23, |s| s.afid().is_some()),
    rule("another fid unknown", 0, |s| s.other_fid().is_some_and(|fid| !s.known(fid))),
    rule("newfid = fid asked, walk", 0, |s| s.onto_itself() && matches!(s.request(), Some(Tmessage::Walk(_)))),
    rule("newfid = fid asked, xattrwalk", 0, |s| s.onto_itself() && matches!(s.request(), Some(Tmessage::XattrWalk(_)))),
    rule("tag 65535", 0, |s| s.asks() && s.tag == u16::MAX),
    rule("flush of an open tag", 0, |s| s.asks() && s.old_is_open()),
    rule("flush of its own tag", 0, |s| s.asks() && s.oldtag() == Some(s.tag)),
    rule("the 64th request", 0, |s| s.asks() && s.session.open.len() == 63),
    rule("a freed tag's room", 0, |s| s.asks() && s.session.open.len() == 63 && s.history.requests_full),
    // The order of a reply's checks.
    rule("newfid in use again, and fid unknown", 22, |s| s.replies() && s.unknown()),
    rule("newfid in use again, and fids full", 22, |s| s.replies() && s.fids_full()),
    rule("newfid in use again, and places full", 22, |s| s.replies() && s.places_full()),
    rule("fid unknown again, and fids full", 23, |s| s.replies() && s.gives_new() && s.fids_full()),
    rule("fid unknown again, and places full", 23, |s| s.replies() && s.makes() > 0 && s.places_full()),
    rule("fid unknown, but only a tag closed", 0, |s| s.only_closes() && !s.fails() && s.unknown()),
    rule("fid unknown, but an Rlerror", 0, |s| s.only_closes() && s.fails() && s.unknown()),
    rule("newfid in use, but an Rlerror", 0, |s| s.fails() && s.taken()),
    // Refused, a reply leaves its request.
    rule("a tag kept by a refused reply", 20, |s| s.asks() && s.history.kept.contains(&s.tag)),
    rule("closed after a refused reply", 0, |s| s.replies() && s.history.kept.contains(&s.tag)),
    rule("flushed after a refused reply", 0, |s| s.replies() && !s.fails()
        && s.oldtag().is_some_and(|old| s.history.kept.contains(&old))),
    // Flush and version.
    rule("Rflush, old tag open", 0, |s| s.replies() && !s.fails() && s.old_is_open()),
    rule("Rflush, old tag not open", 0, |s| s.replies() && !s.fails() && s.oldtag().is_some() && !s.old_is_open()),
    rule("Rlerror to flush, old tag open", 0, |s| s.fails() && s.old_is_open()),
    rule("Rversion over requests", 0, |s| s.empties() && s.session.open.len() > 1),
    rule("Rversion over full requests", 0, |s| s.empties() && s.requests_full()),
    rule("Rversion over full fids", 0, |s| s.empties() && s.fids_full()),
    rule("Rversion over full places", 0, |s| s.empties() && s.places_full()),
    // Walks.
    rule("`..` from a root", 0, |s| s.walks_up_from(true)),
    rule("`..` from below", 0, |s| s.walks_up_from(false)),
    rule("`.` in a walk", 0, |s| s.walks_by(b".")),
    rule("an empty name in a walk", 0, |s| s.walks_by(b"")),
    rule("a slash in a name", 0, |s| s.walks_by(b"a/b")),
    rule("fewer qids", 0, |s| s.walk_is(Ordering::Less)),
    rule("fewer qids, fid unknown", 0, |s| s.walk_is(Ordering::Less) && s.unknown()),
    rule("fewer qids, newfid in use", 0, |s| s.walk_is(Ordering::Less) && s.taken()),
    rule("fewer qids, places full", 0, |s| s.walk_is(Ordering::Less) && s.places_full()),
    rule("more qids", 0, |s| s.walk_is(Ordering::Greater)),
    rule("newfid = fid walked", 0, |s| s.onto_itself() && s.makes() > 0),
    rule("newfid = fid, no names", 0, |s| s.onto_itself() && s.whole_walk().is_some_and(|names| names.is_empty())),
    rule("newfid = fid, fid unknown again", 23, |s| s.replies() && s.onto_itself() && s.whole_walk().is_some()),
    rule("no names, fid unknown again", 23, |s| s.whole_walk().is_some_and(|names| names.is_empty())),
    rule("no names, newfid in use again", 22, |s| s.whole_walk().is_some_and(|names| names.is_empty())),
    // Rooms.
    rule("the 64th fid", 0, |s| s.session.fids.len() == 63 && s.gives_new()),
    rule("a dropped fid's room", 0, |s| s.session.fids.len() == 63 && s.gives_new() && s.history.fids_full),
    rule("fids full, newfid = fid", 0, |s| s.fids_full() && s.onto_itself() && s.gives().is_some()),
    rule("fids full, lcreate", 0, |s| s.fids_full() && s.makes() == 1 && !s.onto_itself()),
    rule("the 256th place", 0, |s| s.makes() > 0 && s.makes() == s.left()),
    rule("too few places for a walk, but some", 24, |s| s.left() > 0 && s.makes() > s.left() && !s.fids_full()),
    rule("places full, walk up", 0, |s| s.places_full() && s.walks_by(b"..")),
    rule("places full, no names", 0, |s| s.places_full() && s.whole_walk().is_some_and(|names| names.is_empty())),
    rule("places full, xattrwalk", 0, |s| s.places_full() && s.gives_new() && s.whole_walk().is_none()),
    rule("places full after a drop", 24, |s| s.history.dropped && s.places_full() && s.makes() > 0 && !s.fids_full()),
    // What else is given.
    rule("fid 4294967295 given", 0, |s| s.gives().is_some_and(|(fid, _)| fid == NO_FID) && s.gives_new()),
    rule("lcreate of `..`", 0, |s| s.creates_up()),
    rule("a request with a tail", 0, |s| s.asks() && s.tail > 0),
    rule("a reply with a tail", 0, |s| s.replies() && s.tail > 0),
];
