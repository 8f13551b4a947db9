//! What a trailer tells of the frames before it.

use sheafsledge::session::TRAILER;

use crate::recording::Row;

/// After a frame: how many bytes and frames there are, and where the last one starts, 0 if there is
/// none.
#[derive(Clone, Copy, Debug, Default, PartialEq, Eq)]
pub struct Mark {
    pub bytes: u64,
    pub frames: u64,
    pub last: u64,
}

impl Mark {
    /// After one frame more.
    pub fn and(self, row: &Row) -> Self {
        Self {
            bytes: row.at + u64::from(row.size),
            frames: self.frames + 1,
            last: row.at,
        }
    }

    /// After the frames of another recording, which follow these.
    pub fn then(self, next: Self) -> Self {
        Self {
            bytes: self.bytes + next.bytes,
            frames: self.frames + next.frames,
            last: match next.frames {
                0 => self.last,
                _ => self.bytes + next.last,
            },
        }
    }

    /// None if it has no room for these numbers.
    pub fn trailer(self) -> Option<[u8; TRAILER]> {
        let mut trailer = [0; TRAILER];
        let numbers = [self.bytes, self.frames, self.last];
        for (room, number) in trailer.chunks_exact_mut(4).zip(numbers) {
            room.copy_from_slice(&u32::try_from(number).ok()?.to_le_bytes());
        }
        Some(trailer)
    }
}

#[cfg(test)]
mod tests {
    use super::*;

    #[test]
    fn no_trailer_tells_more_than_four_bytes_hold() {
        let most = u64::from(u32::MAX);
        let (bytes, frames, last) = (most - 7, 3, most - 14);
        let mark = Mark {
            bytes,
            frames,
            last,
        };
        let told = b"\xf8\xff\xff\xff\x03\0\0\0\xf1\xff\xff\xff";
        assert_eq!(mark.trailer().as_ref(), Some(told));
        let seven = Mark {
            bytes: 7,
            frames: 1,
            last: 0,
        };
        let full = mark.then(seven);
        let told = b"\xff\xff\xff\xff\x04\0\0\0\xf8\xff\xff\xff";
        assert_eq!(full.trailer().as_ref(), Some(told));
        assert_eq!(full.then(Mark::default()), full);
        assert_eq!(full.then(seven).trailer(), None);
    }
}
