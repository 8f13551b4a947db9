//! The seller's Rust, its answer put as the library puts its own.

use std::io;
use std::sync::LazyLock;

use judge::cases::{drawn, too_many, types, DIRECTIONS};
use judge::refusal::number;
use judge::{written, Direction};
use ours::{Flat, Outcome, R_VALUES, UNWRITTEN};
use p9::draw::Draws;
use p9::flat::Value;
use p9::protocol::{Qid, Rframe, Tframe, WireFormat};

use crate::compare;
use crate::pieces::{in_a_frame, pieces, shown, values};
use crate::places::{self, Why};

/// The frame written again, or the refusal.
pub type Again = Result<Vec<u8>, Why>;

#[derive(PartialEq, Eq)]
pub struct Theirs {
    pub flat: Flat,
    /// Whether the record's strings, data and elements are what the spans show.
    pub shown: bool,
    /// `None` where there is no frame to write.
    pub again: Option<Again>,
}

/// What is told of a frame's body at a position of a stretch, by what the frame is alone: spans and
/// parts, the empty ones too, and the place of a text count from the stretch's first byte; numbers,
/// and the bytes used, are as they were. There is neither a type nor a tag.
pub fn raised(direction: Direction, ty: u8, alone: &Flat, by: usize) -> Flat {
    let Outcome { refusal, place, .. } = alone.outcome;
    let place = match refusal {
        5 | 6 => place + by,
        _ => place,
    };
    let mut values = alone.values;
    if refusal == 0 {
        let mut at = 0;
        for field in layout(direction, ty).unwrap_or_default() {
            // Which of its values is a position, if one is, and how many it has.
            let (position, count) = match field {
                Value::Number(..) => (None, 1),
                Value::String(_) | Value::Data(_) => (Some(at), 2),
                Value::Names(_) | Value::Qids(_) => (Some(at + 1), 3),
            };
            if let Some(at) = position {
                values[at] += by as u64;
            }
            at += count;
        }
    }
    let outcome = compare::told(refusal, place);
    Flat { outcome, values }
}

/// What the paper has of the seller's answer: all of it, but for walks of more than sixteen elements,
/// which the seller reads.
pub fn read(direction: Direction, bytes: &[u8]) -> Theirs {
    match too_many(direction, bytes) {
        true => over(direction, bytes),
        false => sellers(direction, bytes),
    }
}

/// 17, straight after the count. A request has a tag then, and a record that can't be written.
fn over(direction: Direction, bytes: &[u8]) -> Theirs {
    let theirs = refused((17, 0));
    match direction {
        Direction::R => theirs,
        Direction::T => {
            let (again, tag) = (Some(Err((16, 0))), u16::from_le_bytes([bytes[5], bytes[6]]));
            with_tag(Theirs { again, ..theirs }, tag)
        }
    }
}

/// The seller's own answer, with the place that the standard library tells for it.
pub fn sellers(direction: Direction, bytes: &[u8]) -> Theirs {
    let mut rest = bytes;
    let why = |error: &io::Error| {
        let refusal = refusal(error);
        (refusal, places::in_a_frame(direction, bytes, refusal))
    };
    match direction {
        Direction::T => match Tframe::decode(&mut rest) {
            Err(error) => refused(why(&error)),
            Ok(frame) => match &frame.msg {
                Err(error) => tagged(why(error), &frame),
                Ok(msg) => {
                    let theirs = accepted(bytes, rest, &listed(msg), &frame);
                    with_tag(theirs, frame.tag)
                }
            },
        },
        Direction::R => match Rframe::decode(&mut rest) {
            Err(error) => refused(why(&error)),
            Ok(frame) => {
                let theirs = accepted(bytes, rest, &listed(&frame.msg), &frame);
                with_tag(theirs, frame.tag)
            }
        },
    }
}

/// The values of a frame that the seller wrote.
pub fn with_values<A>(
    direction: Direction,
    mut frame: &[u8],
    then: impl FnOnce(&[Value]) -> A,
) -> A {
    const SOUND: &str = "what the seller wrote the seller reads";
    match direction {
        Direction::T => {
            let read = Tframe::decode(&mut frame).and_then(|frame| frame.msg);
            then(&listed(&read.expect(SOUND)))
        }
        Direction::R => {
            let read = Rframe::decode(&mut frame);
            then(&listed(&read.expect(SOUND).msg))
        }
    }
}

/// The values of a Twrite, an Rread or an Rreaddir whose data may be too long to be read again. Their
/// numbers are those of `limits`.
pub fn of_data(frame: &[u8]) -> Vec<Value<'_>> {
    match frame[4] {
        118 => vec![
            Value::Number(1, 4),
            Value::Number(2, 8),
            Value::Data(&frame[23..]),
        ],
        _ => vec![Value::Data(&frame[11..])],
    }
}

/// A type's number and its values, whatever these are.
type Layout = (u8, Vec<Value<'static>>);

/// The values of a type: those of a record that was drawn.
pub fn layout(direction: Direction, ty: u8) -> Option<&'static [Value<'static>]> {
    static LAYOUTS: LazyLock<[Vec<Layout>; 2]> = LazyLock::new(|| DIRECTIONS.map(layouts));
    let mut all = LAYOUTS[direction as usize].iter();
    let found = all.find(|(known, _)| *known == ty);
    found.map(|(_, values)| values.as_slice())
}

fn layouts(direction: Direction) -> Vec<Layout> {
    let draws = &mut Draws::new(0);
    let all = (0..types(direction)).map(|place| {
        let frame = drawn(direction, place, draws);
        let values = with_values(direction, &frame, |record| {
            record.iter().map(emptied).collect()
        });
        (frame[4], values)
    });
    all.collect()
}

/// The kind of a value alone.
fn emptied(value: &Value) -> Value<'static> {
    match value {
        Value::Number(_, width) => Value::Number(0, *width),
        Value::String(_) => Value::String(&[]),
        Value::Data(_) => Value::Data(&[]),
        Value::Names(_) => Value::Names(&[]),
        Value::Qids(_) => Value::Qids(&[]),
    }
}

fn listed(msg: &impl p9::flat::Flat) -> Vec<Value<'_>> {
    let mut values = Vec::new();
    msg.flat(&mut values);
    values
}

pub fn qid(theirs: &Qid) -> ours::Qid {
    ours::Qid {
        ty: theirs.ty,
        version: theirs.version,
        path: theirs.path,
    }
}

/// A number that the paper does not have equals none of ours.
pub fn refusal(error: &io::Error) -> u8 {
    number(error).unwrap_or(u8::MAX)
}

/// No frame, and no tag.
pub fn refused((refusal, place): Why) -> Theirs {
    let (outcome, values) = (compare::told(refusal, place), [UNWRITTEN; R_VALUES]);
    Theirs {
        flat: Flat { outcome, values },
        shown: true,
        again: None,
    }
}

fn again(frame: &impl WireFormat) -> Again {
    written(frame).map_err(|error| (refusal(&error), 0))
}

fn tagged(why: Why, frame: &Tframe) -> Theirs {
    let theirs = Theirs {
        again: Some(again(frame)),
        ..refused(why)
    };
    with_tag(theirs, frame.tag)
}

fn with_tag(mut theirs: Theirs, tag: u16) -> Theirs {
    theirs.flat.outcome.tag = tag;
    theirs.flat.outcome.held = true;
    theirs
}

fn accepted(bytes: &[u8], rest: &[u8], record: &[Value], frame: &impl WireFormat) -> Theirs {
    let pieces = pieces(record);
    let places = in_a_frame(&pieces);
    let again = again(frame);
    Theirs {
        flat: Flat {
            outcome: Outcome {
                ty: again.as_ref().map_or(0, |frame| frame[4]),
                ..compare::told(0, bytes.len() - rest.len())
            },
            values: values(&pieces, &places),
        },
        shown: shown(&pieces, &places, bytes),
        again: Some(again),
    }
}
