//! Frames of either direction: read, written again, and made from the seller's.

use std::cell::Cell;

use judge::cases::{too_many, wraps};
use judge::{written, Direction};
use p9::draw::Draws;
use p9::protocol::{self as seller, WireFormat};
use sheafsledge::{
    Data, Decoded, Fid, Refusal, Rframe, Rmessage, Rread, Rreaddir, Tag, Tframe, Tmessage, Twrite,
};

use super::fields::Beside;
use super::{answer, found, put, unequal, Found, Wrote};
use crate::compare::in_a_room;
use crate::places::in_a_frame;
use crate::theirs::refusal;

pub trait Frame<'a>: Beside<'a, Self::Theirs> {
    type Theirs: WireFormat;

    const DIRECTION: Direction;

    fn read(bytes: &'a [u8]) -> Result<Decoded<Self>, Refusal>;

    fn write(&self, out: &mut [u8]) -> Wrote;

    fn size(&self) -> Wrote;

    /// The type where there is a message, or the refusal.
    fn ty(&self) -> Result<u8, Refusal>;
}

macro_rules! frame {
    ($frame:ident, $direction:ident, $ty:expr) => {
        impl<'a> Frame<'a> for $frame<'a> {
            type Theirs = seller::$frame;

            const DIRECTION: Direction = Direction::$direction;

            fn read(bytes: &'a [u8]) -> Result<Decoded<Self>, Refusal> {
                $frame::decode(bytes)
            }

            fn write(&self, out: &mut [u8]) -> Wrote {
                self.encode(out)
            }

            fn size(&self) -> Wrote {
                self.byte_size()
            }

            fn ty(&self) -> Result<u8, Refusal> {
                let ty: fn(&Self) -> Result<u8, Refusal> = $ty;
                ty(self)
            }
        }
    };
}

frame!(Tframe, T, |frame| frame.msg.map(|msg| msg.ty()));
frame!(Rframe, R, |frame| Ok(frame.msg.ty()));

/// Of a request whose message is refused nothing counts as used.
fn read<'a, F: Frame<'a>>(bytes: &'a [u8]) -> Found {
    let mut rest = bytes;
    let theirs = F::Theirs::decode(&mut rest);
    let ours = F::read(bytes);
    let used = ours.as_ref().map_or(0, |ours| ours.used);
    let ours = ours.map(|ours| ours.frame);
    let ty = ours.as_ref().map_or_else(|refusal| Err(*refusal), F::ty);
    let placed = ours.difference(&theirs).or_else(|| {
        let refusal = ty.err()?;
        placed(F::DIRECTION, bytes, refusal, 0)
    });
    placed.or_else(|| {
        let (ours, theirs) = (ours.ok()?, theirs.ok()?);
        let ty = ty.ok();
        let all = ty.map_or(0, |_| bytes.len() - rest.len());
        unequal(&(used, ty), &(all, ty.map(|_| bytes[4]))).or_else(|| again(&ours, &theirs))
    })
}

/// Which byte it tells of, beside the standard library's, of a frame at a position.
pub fn placed(direction: Direction, frame: &[u8], ours: Refusal, at: usize) -> Found {
    let number = ours.number();
    let theirs = in_a_frame(direction, frame, number).saturating_add(at);
    unequal(&ours.at(), &matches!(number, 5 | 6).then_some(theirs))
}

/// Row 13 of docs/DIFFERENCES.md is known.
pub fn read_request(bytes: &[u8]) -> Found {
    match too_many(Direction::T, bytes) {
        true => {
            let msg = Tframe::decode(bytes).map(|read| read.frame.msg);
            unequal(&msg, &Ok(Err(Refusal::TooManyElements)))
        }
        false => read::<Tframe>(bytes),
    }
}

/// Rows 1 and 14 are.
pub fn read_reply(bytes: &[u8]) -> Found {
    let known = match bytes {
        _ if wraps(Direction::R, bytes) => Refusal::SizeBelowFour,
        _ if too_many(Direction::R, bytes) => Refusal::TooManyElements,
        _ => return read::<Rframe>(bytes),
    };
    unequal(&Rframe::decode(bytes).err(), &Some(known))
}

fn again<'a, F: Frame<'a>>(ours: &F, theirs: &F::Theirs) -> Found {
    let theirs = written(theirs).map_err(|error| (refusal(&error), 0));
    let size = theirs.as_ref().map(Vec::len).map_err(|why| why.0);
    let room = size.unwrap_or(0) + 3;
    found(in_a_room(room, theirs, |out| answer(ours.write(out))))
        .or_else(|| unequal(&ours.size().map_err(Refusal::number), &size))
}

/// A frame of ours made from the seller's, and written beside what the seller wrote. The buffer is as
/// long as that.
pub fn made<'a, F: Frame<'a>>(
    theirs: &'a F::Theirs,
    buffer: &'a mut [u8],
    bytes: &[u8],
    draws: &mut Draws,
) -> Found {
    let ours = F::made(theirs, &Cell::new(buffer));
    put(0, bytes, draws, |out| ours.write(out))
        .or_else(|| unequal(&ours.size(), &Ok(theirs.byte_size() as usize)))
}

/// A frame with data that may be too long to be read again. Its numbers are those of `limits`.
pub fn data(frame: &[u8], draws: &mut Draws) -> Found {
    let (tag, fid, offset) = (Tag(1), Fid(1), 2);
    let data = |start| Data(frame.get(start..).unwrap_or_default());
    let msg = match frame[4] {
        118 => {
            let data = data(23);
            let msg = Ok(Tmessage::Write(Twrite { fid, offset, data }));
            return put(0, frame, draws, |out| Tframe { tag, msg }.encode(out));
        }
        117 => Rmessage::Read(Rread { data: data(11) }),
        _ => Rmessage::Readdir(Rreaddir { data: data(11) }),
    };
    put(0, frame, draws, |out| Rframe { tag, msg }.encode(out))
}
