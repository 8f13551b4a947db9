//! Which byte of a text is refused. The seller does not say, so the standard library does: with 5 it is
//! where `Utf8Error::valid_up_to` ends the string, with 6 the first zero byte.

use judge::Direction;
use p9::draw::Draws;
use p9::flat::Value;

use crate::theirs::layout;

/// A refusal's number, and the place that it carries; 0 if it carries none.
pub type Why = (u8, usize);

/// A place that no answer has: the string that was refused is not where it should be.
const NOWHERE: usize = usize::MAX;

/// The byte counts from a start of the string's own.
pub fn text(bytes: &[u8], start: usize) -> Result<(), Why> {
    match std::str::from_utf8(bytes) {
        Err(error) => Err((5, start + error.valid_up_to())),
        Ok(text) => text.find('\0').map_or(Ok(()), |at| Err((6, start + at))),
    }
}

/// The names of a walk, which fill a part that has such a start.
pub fn names(part: &[u8], count: u16, start: usize) -> Result<(), Why> {
    let mut rest = part;
    for _ in 0..count {
        let (len, after) = rest.split_first_chunk().ok_or((14, 0))?;
        let len = usize::from(u16::from_le_bytes(*len));
        let (name, after) = after.split_at_checked(len).ok_or((14, 0))?;
        text(name, start + part.len() - after.len() - len)?;
        rest = after;
    }
    match rest.is_empty() {
        true => Ok(()),
        false => Err((14, 0)),
    }
}

/// The place of a refusal of a frame, by the seller's own layouts.
pub fn in_a_frame(direction: Direction, frame: &[u8], refusal: u8) -> usize {
    match refusal {
        5 | 6 => {
            let found = layout(direction, frame[4]).and_then(|fields| broken(fields, frame));
            found.map_or(NOWHERE, |why| of(refusal, why))
        }
        _ => 0,
    }
}

/// The same of a directory entry's name, which starts at a place of some bytes.
pub fn in_an_entry(bytes: &[u8], start: usize, refusal: u8) -> usize {
    match refusal {
        5 | 6 => {
            let found = string(bytes, start - 2).and_then(|(name, _)| text(name, start).err());
            found.map_or(NOWHERE, |why| of(refusal, why))
        }
        _ => 0,
    }
}

fn of(refusal: u8, (number, place): Why) -> usize {
    match number == refusal {
        true => place,
        false => NOWHERE,
    }
}

/// A string whose count is at a place, and the place after it.
fn string(bytes: &[u8], at: usize) -> Option<(&[u8], usize)> {
    let (len, after) = bytes.get(at..)?.split_first_chunk()?;
    let len = usize::from(u16::from_le_bytes(*len));
    Some((after.get(..len)?, at + 2 + len))
}

/// The first string that is refused. None after data or qids is looked for: no layout has one.
fn broken(fields: &[Value], frame: &[u8]) -> Option<Why> {
    let mut at = 7;
    for field in fields {
        let strings = match field {
            Value::Number(_, width) => {
                at += width;
                0
            }
            Value::String(_) => 1,
            Value::Names(_) => {
                let count = frame.get(at..)?.first_chunk()?;
                at += 2;
                u16::from_le_bytes(*count)
            }
            Value::Data(_) | Value::Qids(_) => return None,
        };
        for _ in 0..strings {
            let (bytes, next) = string(frame, at)?;
            if let Err(why) = text(bytes, at + 2) {
                return Some(why);
            }
            at = next;
        }
    }
    None
}

/// As many bytes, of which a few are others: zero, or such as are often no part of a text.
pub fn altered(bytes: &[u8], draws: &mut Draws) -> Vec<u8> {
    let mut bytes = bytes.to_vec();
    let zeros = draws.below(2) == 0;
    for _ in 0..=draws.below(3) {
        let at = draws.below(bytes.len().max(1));
        if let Some(byte) = bytes.get_mut(at) {
            *byte = match zeros {
                true => 0,
                false => draws.one_of(&[0, b'a', 0x80, 0xc3, 0xe2, 0xed, 0xf0, 0xff]),
            };
        }
    }
    bytes
}
