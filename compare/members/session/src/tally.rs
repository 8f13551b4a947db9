//! How often each answer and each rule occurred, and which of those that have to did not.

use std::collections::BTreeMap;

use judge::Direction;

use crate::frames::{
    all_types, RLERROR, TATTACH, TAUTH, TCLUNK, TFLUSH, TLCREATE, TREMOVE, TVERSION, TWALK,
    TXATTRWALK,
};
use crate::reading::{direction_of, Message};
use crate::recording::{Answer, Watch};
use crate::rules::RULES;
use crate::scene::{History, Scene};
use crate::session::{Refusal, Session, FIDS, REQUESTS};

/// The codec's own that a frame of a stretch can have.
const CODEC: [u8; 6] = [1, 3, 4, 5, 6, 17];

/// In the place of a reply's type: there is none, or any that does not answer.
const NONE: u8 = 0;
const ANY: u8 = u8::MAX;

/// The type that is asked or replied to, the reply's, and the answer.
type Pair = (u8, u8, u8);

/// Request, reply, and which 22 to 24 the reply can have.
const AGAIN: [(u8, u8, &[u8]); 9] = [
    (TAUTH, TAUTH + 1, &[22, 24]),
    (TATTACH, TATTACH + 1, &[22, 23, 24]),
    (TWALK, TWALK + 1, &[22, 23, 24]),
    (TLCREATE, TLCREATE + 1, &[23, 24]),
    (TXATTRWALK, TXATTRWALK + 1, &[22, 23, 24]),
    (TCLUNK, TCLUNK + 1, &[23]),
    (TCLUNK, RLERROR, &[23]),
    (TREMOVE, TREMOVE + 1, &[23]),
    (TREMOVE, RLERROR, &[23]),
];

/// Which requests find which table full, at their replies.
const FULL: [(Refusal, &[u8]); 2] = [
    (Refusal::FidsFull, &[TAUTH, TATTACH, TWALK, TXATTRWALK]),
    (Refusal::PlacesFull, &[TAUTH, TATTACH, TWALK, TLCREATE]),
];

#[derive(Default)]
pub struct Tally {
    answers: BTreeMap<u8, usize>,
    rules: BTreeMap<&'static str, usize>,
    pairs: BTreeMap<Pair, usize>,
    full: BTreeMap<(&'static str, u8), usize>,
    walks: BTreeMap<usize, usize>,
    history: History,
    /// Of the frame that is being followed.
    holding: Vec<usize>,
    asked: Option<u8>,
    names: Option<usize>,
}

impl Watch for Tally {
    fn before(&mut self, session: &Session, ty: u8, tag: u16, message: &Message, tail: usize) {
        self.history.fids_full |= session.fids.len() == FIDS;
        self.history.requests_full |= session.open.len() == REQUESTS;
        let scene = Scene {
            session,
            history: &self.history,
            tag,
            message,
            tail,
        };
        let holds = |number: &usize| (RULES[*number].fact)(&scene);
        self.holding = (0..RULES.len()).filter(holds).collect();
        self.names = scene.whole_walk().map(|names| names.len());
        self.asked = match message {
            Message::T(_) => Some(ty),
            Message::R(_) => scene.open().map(|asked| asked.0),
        };
    }

    fn after(&mut self, ty: u8, tag: u16, answer: &Answer) {
        let number = answer.number();
        *self.answers.entry(number).or_default() += 1;
        let Answer::Session(done) = answer else {
            return;
        };
        for rule in self.holding.drain(..).map(|number| &RULES[number]) {
            if rule.answer == number {
                *self.rules.entry(rule.name).or_default() += 1;
            }
        }
        let pair = (self.asked.unwrap_or(NONE), reply(ty), number);
        *self.pairs.entry(pair).or_default() += 1;
        if number == 21 && self.asked.is_some() {
            *self.pairs.entry((pair.0, ANY, number)).or_default() += 1;
        }
        if let Some(table) = done.err().and_then(table) {
            *self.full.entry((table, pair.0)).or_default() += 1;
        }
        if let Some(names) = self.names.filter(|_| number == 0) {
            *self.walks.entry(names).or_default() += 1;
        }
        self.remember(ty, tag, number);
    }
}

impl Tally {
    /// A new session has no history.
    pub fn start(&mut self) {
        self.history = History::default();
    }

    fn remember(&mut self, ty: u8, tag: u16, answer: u8) {
        if reply(ty) == NONE {
            return;
        }
        match answer {
            22..=24 => drop(self.history.kept.insert(tag)),
            0 => {
                self.history.kept.remove(&tag);
                self.history.dropped |= matches!(self.asked, Some(TCLUNK | TREMOVE));
                if ty == TVERSION + 1 {
                    self.start();
                }
            }
            _ => {}
        }
    }

    pub fn print(&self) {
        println!("answers: {}", listed(&self.answers));
        println!("full: {}", listed(&self.tables()));
        println!("walks, by their names: {}", listed(&self.walks));
        println!("rules, with how often and the answer:");
        for rule in RULES {
            let count = self.rules.get(rule.name).unwrap_or(&0);
            println!("{count:>6} {:>3} {}", rule.answer, rule.name);
        }
    }

    fn tables(&self) -> BTreeMap<&str, usize> {
        let mut sums = BTreeMap::new();
        for ((table, _), count) in &self.full {
            *sums.entry(*table).or_default() += count;
        }
        sums
    }

    /// What did not occur, though every run has to meet it.
    pub fn missing(&self) -> Vec<String> {
        let answer = |number: &u8| !self.answers.contains_key(number);
        let answers = CODEC.into_iter().chain(20..=24).filter(answer);
        let mut missing: Vec<String> = answers.map(|number| format!("answer {number}")).collect();
        let rules = RULES.iter().map(|rule| rule.name);
        missing.extend(
            rules
                .filter(|name| !self.rules.contains_key(name))
                .map(String::from),
        );
        let walks = (0..=16).filter(|names| !self.walks.contains_key(names));
        missing.extend(walks.map(|names| format!("a walk of {names} names")));
        let pairs = needed()
            .into_iter()
            .filter(|pair| !self.pairs.contains_key(pair));
        missing
            .extend(pairs.map(|pair| format!("request {}, reply {}: {}", pair.0, pair.1, pair.2)));
        for (refusal, types) in FULL {
            let table = table(refusal).unwrap_or_default();
            let met = |ty: &&u8| self.full.contains_key(&(table, **ty));
            let never = types.iter().filter(|ty| !met(ty));
            missing.extend(never.map(|ty| format!("no {table} left at the reply to {ty}")));
        }
        missing
    }
}

/// The type, if it is a reply's.
fn reply(ty: u8) -> u8 {
    match direction_of(ty) {
        Direction::T => NONE,
        Direction::R => ty,
    }
}

fn table(refusal: Refusal) -> Option<&'static str> {
    match refusal {
        Refusal::RequestsFull => Some("requests"),
        Refusal::FidsFull => Some("fids"),
        Refusal::PlacesFull => Some("places"),
        _ => None,
    }
}

/// Every type in every answer that it can have.
fn needed() -> Vec<Pair> {
    let mut pairs = Vec::new();
    for ty in all_types(Direction::T) {
        pairs.extend([0, 20, 24].map(|answer| (ty, NONE, answer)));
        pairs.extend([(ty, ty + 1, 0), (ty, RLERROR, 0), (ty, ANY, 21)]);
        if [TAUTH, TATTACH, TWALK, TXATTRWALK].contains(&ty) {
            pairs.push((ty, NONE, 22));
        }
        if ![TVERSION, TAUTH, TFLUSH].contains(&ty) {
            pairs.push((ty, NONE, 23));
        }
    }
    let strays = all_types(Direction::R).into_iter();
    pairs.extend(strays.map(|ty| (NONE, ty, 21)));
    for (request, reply, answers) in AGAIN {
        pairs.extend(answers.iter().map(|answer| (request, reply, *answer)));
    }
    pairs
}

fn listed<K: std::fmt::Display>(counts: &BTreeMap<K, usize>) -> String {
    let words: Vec<String> = counts
        .iter()
        .map(|(what, count)| format!("{what} {count}"))
        .collect();
    words.join(", ")
}
