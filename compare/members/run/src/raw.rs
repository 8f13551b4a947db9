//! Flat records of any values, written: what no typed caller could hand over, too.
//!
//! Which values a record has is taken from the seller's own record of the type. What has to come of
//! them is put together here by the rules of docs/FORMAT.md, since the seller's records have no spans.

use judge::Direction;
use ours::{Flat, R_VALUES};
use p9::draw::MOST_ELEMENTS;
use p9::flat::Value;

use crate::compare::{in_a_room, Outcome};
use crate::limits::MOST;
use crate::places::{names, text, Why};
use crate::theirs::layout;

/// A record's type, tag and values, the room for the frame, and the bytes that are lent.
struct Raw<'a> {
    frame: Flat,
    room: usize,
    lent: &'a [u8],
}

/// What some bytes come to as a record: any bytes are one.
pub fn raw(direction: Direction, bytes: &[u8]) -> Outcome {
    let Raw { frame, room, lent } = taken(bytes);
    let theirs = match frame.outcome.refusal {
        0 => written(direction, &frame, lent),
        _ => Err((16, 0)),
    };
    let theirs = theirs.and_then(|frame| match frame.len() > room {
        true => Err((11, 0)),
        false => Ok(frame),
    });
    in_a_room(room, theirs, |out| {
        ours::write(direction, out, lent, &frame)
    })
}

/// A header, then the values: below 250 a byte is the value itself, above it says how wide the value
/// after it is, and 255 ends them. What is left is lent.
fn taken(bytes: &[u8]) -> Raw<'_> {
    let mut rest = bytes;
    let mut number = |width: usize| {
        let (front, after) = rest.split_at(width.min(rest.len()));
        rest = after;
        let mut wide = [0; 8];
        wide[..front.len()].copy_from_slice(front);
        u64::from_le_bytes(wide)
    };
    let outcome = ours::Outcome {
        ty: number(1) as u8,
        tag: number(2) as u16,
        held: true,
        // One in 256 holds a refusal, of any number.
        refusal: match number(1) {
            255 => number(1) as u8,
            _ => 0,
        },
        place: 0,
    };
    let room = number(2) as usize;
    let mut values = [0; R_VALUES];
    for value in &mut values {
        *value = match number(1) {
            small @ 0..=249 => small,
            250 | 251 => number(2),
            252 => number(4),
            253 => number(8),
            254 => u64::MAX,
            _ => break,
        };
    }
    let (frame, lent) = (Flat { outcome, values }, rest);
    Raw { frame, room, lent }
}

fn written(direction: Direction, frame: &Flat, lent: &[u8]) -> Result<Vec<u8>, Why> {
    let fields = layout(direction, frame.outcome.ty).ok_or((3, 0))?;
    let mut values = frame.values.iter().copied();
    let mut next = || values.next().unwrap_or(0);
    let mut out = vec![0; 4];
    out.push(frame.outcome.ty);
    out.extend(frame.outcome.tag.to_le_bytes());
    for field in fields {
        match field {
            Value::Number(_, width) => out.extend(&next().to_le_bytes()[..*width]),
            Value::String(_) => {
                let (bytes, start) = spanned(lent, next(), next())?;
                string(bytes, start)?;
                out.extend((bytes.len() as u16).to_le_bytes());
                out.extend(bytes);
            }
            Value::Data(_) => {
                let (bytes, _) = spanned(lent, next(), next())?;
                out.extend((bytes.len() as u32).to_le_bytes());
                out.extend(bytes);
            }
            Value::Names(_) | Value::Qids(_) => {
                let count = next() as u16;
                if usize::from(count) > MOST_ELEMENTS {
                    return Err((17, 0));
                }
                let (bytes, start) = spanned(lent, next(), next())?;
                match field {
                    Value::Names(_) => names(bytes, count, start)?,
                    _ if bytes.len() != 13 * usize::from(count) => return Err((14, 0)),
                    _ => {}
                }
                out.extend(count.to_le_bytes());
                out.extend(bytes);
            }
        }
    }
    let size = out.len() as u32;
    out[..4].copy_from_slice(&size.to_le_bytes());
    Ok(out)
}

/// The bytes of a span, and where they start.
fn spanned(lent: &[u8], start: u64, len: u64) -> Result<(&[u8], usize), Why> {
    let end = start.checked_add(len).ok_or((9, 0))?;
    let start = start as usize;
    let bytes = lent.get(start..end as usize).ok_or((9, 0))?;
    Ok((bytes, start))
}

fn string(bytes: &[u8], start: usize) -> Result<(), Why> {
    match bytes.len() > MOST {
        true => Err((7, 0)),
        false => text(bytes, start),
    }
}
