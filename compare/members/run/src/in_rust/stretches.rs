//! A stretch as the crate goes through it.

use std::ptr;

use judge::cases::{sized, too_many, unknown};
use judge::stretch::whole;
use judge::Direction;
use p9::draw::Draws;
use p9::protocol::{self as seller, WireFormat};
use sheafsledge::{answers, Body, FieldAt, Listed, Mark, Refusal, Rframe, Tag, Tframe, Value};

use super::fields::Beside;
use super::frames::placed;
use super::{put, unequal, Found};
use crate::pieces::{in_a_frame, pieces, Piece};
use crate::stretches::{way, RLERROR};
use crate::theirs::with_values;

/// To its end, or to where it breaks off; nothing is given after that.
pub fn stretch(bytes: &[u8], draws: &mut Draws) -> Found {
    let mut ours = sheafsledge::stretch(bytes);
    let (mut at, mut broken) = (0, false);
    while at < bytes.len() && !broken {
        let found = match (ours.next(), whole(&bytes[at..])) {
            (Some(Ok(ours)), Ok(frame)) => {
                let place = at;
                at += frame.len();
                listed(&ours, place, frame).or_else(|| in_its_place(&ours, bytes, frame, draws))
            }
            (Some(Err(stop)), Err(refusal)) => {
                broken = true;
                unequal(&(stop.at, stop.refusal.number()), &(at, refusal))
            }
            (ours, theirs) => unequal(
                &ours.map(|ours| ours.err().map(|stop| stop.refusal.number())),
                &Some(theirs.err()),
            ),
        };
        if found.is_some() {
            return found;
        }
    }
    unequal(&ours.next().is_some(), &false)
}

fn listed(ours: &Listed, at: usize, frame: &[u8]) -> Found {
    let (ty, tag) = (frame[4], Tag(u16::from_le_bytes([frame[5], frame[6]])));
    let places = [ours.at, ours.position(), ours.size, ours.next];
    unequal(&places, &[at, at, frame.len(), at + frame.len()])
        .or_else(|| unequal(&(ours.ty, ours.tag), &(ty, tag)))
        .or_else(|| body(ours, frame))
        .or_else(|| pairs(ours.mark(), Mark { ty, tag }))
}

/// A refused body has no tail.
fn body(ours: &Listed, frame: &[u8]) -> Found {
    let (at, mut rest) = (ours.at, frame);
    let (found, held) = match (&ours.body, frame[4] % 2) {
        (Body::Request(ours), 0) if too_many(Direction::T, frame) => {
            (unequal(ours, &Err(Refusal::TooManyElements)), false)
        }
        (Body::Reply(ours), 1) if too_many(Direction::R, frame) => {
            (unequal(ours, &Err(Refusal::TooManyElements)), false)
        }
        (Body::Request(ours), 0) => {
            let theirs = seller::Tframe::decode(&mut rest).and_then(|frame| frame.msg);
            let found = ours.difference(&theirs);
            let placed = || placed(Direction::T, frame, ours.err()?, at);
            (found.or_else(placed), theirs.is_ok())
        }
        (Body::Reply(ours), 1) => {
            let theirs = seller::Rframe::decode(&mut rest).map(|frame| frame.msg);
            let found = ours.difference(&theirs);
            let placed = || placed(Direction::R, frame, ours.err()?, at);
            (found.or_else(placed), theirs.is_ok())
        }
        _ => (unequal(&"one direction", &"the other"), false),
    };
    let tail = if held { rest.len() } else { 0 };
    found.or_else(|| unequal(&ours.tail, &tail))
}

/// Where its fields stand, beside the seller's of the same frame alone; and written again without its
/// tail. A refused body has no fields.
fn in_its_place(ours: &Listed, bytes: &[u8], frame: &[u8], draws: &mut Draws) -> Found {
    let Listed { at, tag, tail, .. } = *ours;
    let msg = match ours.body {
        Body::Request(msg) => msg.map(|_| ()),
        Body::Reply(msg) => msg.map(|_| ()),
    };
    if msg.is_err() {
        return unequal(&(ours.fields().count(), tail), &(0, 0));
    }
    let fields: Vec<FieldAt> = ours.fields().collect();
    let ranges: Vec<Span> = fields.iter().flat_map(shown).collect();
    let theirs = with_values(way(frame[4]), frame, |record| spans(&pieces(record), at));
    let used = frame.len() - tail;
    let stripped = sized(frame[..used].to_vec(), used as u32);
    unequal(&ranges, &theirs)
        .or_else(|| unequal(&covered(ours, &fields), &Some(at + frame.len())))
        .or_else(|| unequal(&fields.iter().all(|field| lent(field, bytes)), &true))
        .or_else(|| {
            put(0, &stripped, draws, |out| match ours.body {
                Body::Request(msg) => Tframe { tag, msg }.encode(out),
                Body::Reply(msg) => Rframe { tag, msg: msg? }.encode(out),
            })
        })
}

/// A start and a length.
type Span = (usize, usize);

/// What it shows; a qid is three numbers, as the seller has it.
fn shown(field: &FieldAt) -> Vec<Span> {
    let range = field.shown();
    match (field.value, range.len()) {
        (Value::Qid(_), 13) => [(0, 1), (1, 4), (5, 8)]
            .map(|(after, len)| (range.start + after, len))
            .to_vec(),
        (_, len) => vec![(range.start, len)],
    }
}

/// The same of the seller's, at a position.
fn spans(pieces: &[Piece], at: usize) -> Vec<Span> {
    let places = in_a_frame(pieces).into_iter().map(|place| at + place);
    let lens = pieces.iter().map(|piece| match piece {
        Piece::Number(_, width) => *width,
        Piece::Span { bytes, .. } => bytes.len(),
    });
    places.zip(lens).collect()
}

/// Where the header, the fields and the tail end, if each begins where the one before it ends.
fn covered(ours: &Listed, fields: &[FieldAt]) -> Option<usize> {
    let fields = fields.iter().map(|field| field.range.clone());
    let mut all = [ours.header_range()].into_iter().chain(fields);
    let end = all.try_fold(ours.at, |end, range| {
        (range.start == end).then_some(range.end)
    })?;
    let tail = ours.tail_range();
    (tail.start == end).then_some(tail.end)
}

/// Whether its strings and its data are the stretch's own bytes, at the ranges that it tells.
fn lent(field: &FieldAt, bytes: &[u8]) -> bool {
    let is_there = |range, slice: &[u8]| bytes.get(range).is_some_and(|own| ptr::eq(own, slice));
    let data = match field.value {
        Value::Data(data) => is_there(field.shown(), &data),
        _ => true,
    };
    let mut texts = field.texts();
    data && texts.all(|(range, text)| is_there(range, text.as_bytes()))
}

/// Whether the next number and 7 answer it, by F7.1, with its tag and with another.
fn pairs(ours: Mark, Mark { ty, tag }: Mark) -> Found {
    let known = !unknown(Direction::T).contains(&ty);
    [ty.wrapping_add(1), RLERROR].into_iter().find_map(|ty| {
        let tags = [tag, Tag(!tag.0)];
        let replies = tags.map(|tag| answers(ours, Mark { ty, tag }));
        unequal(&replies, &[known, false])
    })
}
