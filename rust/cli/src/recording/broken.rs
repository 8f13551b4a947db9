//! A frame with a string that breaks, and the bytes around the place where it does.

use super::Row;

/// How many bytes are kept on either side of the one at the place.
pub const AROUND: usize = 8;

/// The bytes are copied: those of a long frame are gone when it is told of.
#[derive(Clone, Copy, Debug, PartialEq, Eq)]
pub struct Broken {
    pub row: Row,
    /// Where the string breaks, counted as the frame's position is.
    pub place: u64,
    /// The byte at the place stands at `AROUND`.
    bytes: [u8; 2 * AROUND + 1],
    /// How many of the frame's bytes there are before it and after it, at most `AROUND` each.
    before: usize,
    after: usize,
    /// Whether the frame has more on that side.
    pub goes_back: bool,
    pub goes_on: bool,
}

impl Broken {
    /// Of a frame by its bytes, or by as many as have to be seen. None where no string breaks.
    #[cold]
    pub fn of(row: Row, frame: &[u8]) -> Option<Self> {
        let place = row.place()?;
        let from = place.saturating_sub(AROUND);
        let to = end(place, row.size as usize);
        let (before, after) = (place - from, to.checked_sub(place + 1)?);
        let mut bytes = [0; 2 * AROUND + 1];
        bytes[AROUND - before..=AROUND + after].copy_from_slice(frame.get(from..to)?);
        Some(Self {
            row,
            place: row.at + place as u64,
            bytes,
            before,
            after,
            goes_back: from > 0,
            goes_on: to < row.size as usize,
        })
    }

    pub fn before(&self) -> &[u8] {
        &self.bytes[AROUND - self.before..AROUND]
    }

    pub fn byte(&self) -> u8 {
        self.bytes[AROUND]
    }

    pub fn after(&self) -> &[u8] {
        &self.bytes[AROUND + 1..][..self.after]
    }
}

/// How much of a frame of that size has to be seen.
pub fn end(place: usize, size: usize) -> usize {
    place.saturating_add(AROUND + 1).min(size)
}
