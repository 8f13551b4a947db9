//! A frame read and written from flat values.

use crate::{ended, listed, refused, BEFORE};
use sheafsledge_sys::*;

fn read_t(bytes: &[u8], values: &mut [u64; T_VALUES]) -> Outcome {
    // SAFETY: pointer and count are a slice's, and the values are borrowed alone. The library is
    // proved to touch nothing else, and keeps neither.
    unsafe { sheafsledge_read_tframe(bytes.as_ptr(), bytes.len(), values) }
}

fn read_r(bytes: &[u8], values: &mut [u64; R_VALUES]) -> Outcome {
    // SAFETY: as for `read_t`.
    unsafe { sheafsledge_read_rframe(bytes.as_ptr(), bytes.len(), values) }
}

/// A refusal or 0, the type and the tag.
type Head = (u8, u8, u16);

fn write_t(out: &mut [u8], lent: &[u8], (k, ty, tag): Head, values: &[u64; T_VALUES]) -> Outcome {
    let (to, room, from, count) = (out.as_mut_ptr(), out.len(), lent.as_ptr(), lent.len());
    // SAFETY: as for `read_t`; the output is borrowed alone, so that it overlaps nothing.
    unsafe { sheafsledge_write_tframe(to, room, from, count, k, ty, Tag(tag), values) }
}

fn write_r(out: &mut [u8], lent: &[u8], (k, ty, tag): Head, values: &[u64; R_VALUES]) -> Outcome {
    let (to, room, from, count) = (out.as_mut_ptr(), out.len(), lent.as_ptr(), lent.len());
    // SAFETY: as for `write_t`.
    unsafe { sheafsledge_write_rframe(to, room, from, count, k, ty, Tag(tag), values) }
}

/// What was read, with the tag where there is one.
fn head(read: Outcome) -> String {
    match (read.refusal, read.held) {
        (0, _) => format!("accepted {} {} {}", read.ty, read.tag, read.place),
        (_, true) => format!("{} {}", refused(read), read.tag),
        (_, false) => format!("{} -", refused(read)),
    }
}

/// A request read, and written from what was read.
pub fn request(out: &mut [u8], bytes: &[u8]) -> String {
    let mut values = [BEFORE; T_VALUES];
    let r = read_t(bytes, &mut values);
    let wrote = write_t(out, bytes, (r.refusal, r.ty, r.tag), &values);
    format!("{} {} {}", head(r), listed(&values), ended(wrote))
}

/// A reply, in the same way; where it is refused, there is no tag.
pub fn reply(out: &mut [u8], bytes: &[u8]) -> String {
    let mut values = [BEFORE; R_VALUES];
    let r = read_r(bytes, &mut values);
    let wrote = write_r(out, bytes, (r.refusal, r.ty, r.tag), &values);
    format!("{} {} {}", head(r), listed(&values), ended(wrote))
}

/// The body of the request that stands from a position to the end of the bytes, and written from what
/// was read, with all of them lent.
pub fn request_at(out: &mut [u8], ty: u8, at: usize, bytes: &[u8]) -> String {
    let mut values = [BEFORE; T_VALUES];
    let (from, count) = (bytes.as_ptr(), bytes.len());
    // SAFETY: as for `read_t`.
    let read = unsafe { sheafsledge_read_tbody(from, count, at, ty, &mut values) };
    body(read, &values, || {
        write_t(out, bytes, (0, ty, tag_at(bytes, at)), &values)
    })
}

/// The same of a reply.
pub fn reply_at(out: &mut [u8], ty: u8, at: usize, bytes: &[u8]) -> String {
    let mut values = [BEFORE; R_VALUES];
    let (from, count) = (bytes.as_ptr(), bytes.len());
    // SAFETY: as for `read_t`.
    let read = unsafe { sheafsledge_read_rbody(from, count, at, ty, &mut values) };
    body(read, &values, || {
        write_r(out, bytes, (0, ty, tag_at(bytes, at)), &values)
    })
}

fn body(read: Outcome, values: &[u64], write: impl FnOnce() -> Outcome) -> String {
    let said = format!("{} {}", ended(read), listed(values));
    match read.refusal {
        0 => format!("{said} {}", ended(write())),
        _ => said,
    }
}

/// The tag of a frame that was read at a position.
fn tag_at(bytes: &[u8], at: usize) -> u16 {
    u16::from_le_bytes([bytes[at + 5], bytes[at + 6]])
}

/// A frame from its first values, the others 0: a request where the type is even.
pub fn frame(out: &mut [u8], ty: u64, tag: u64, given: &[u64], lent: &[u8]) -> Option<String> {
    let head = (0, u8::try_from(ty).ok()?, u16::try_from(tag).ok()?);
    let mut values = [0; R_VALUES];
    let room = values[..T_VALUES].get_mut(..given.len())?;
    room.copy_from_slice(given);
    let wrote = match ty % 2 {
        0 => write_t(out, lent, head, values.first_chunk()?),
        _ => write_r(out, lent, head, &values),
    };
    Some(ended(wrote))
}

/// A Tversion of so many letters. One more is lent than a string may have.
pub fn letters(out: &mut [u8], count: u64) -> Option<String> {
    frame(out, 100, 65_535, &[8192, 0, count], &[b'a'; 65_536])
}
