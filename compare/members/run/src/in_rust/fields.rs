//! What a record's fields are: each type of ours beside the seller's.

use std::cell::Cell;
use std::io;

use p9::protocol::{self as seller, Data, P9String};
use p9::show::{shown, Show};
use sheafsledge::{Data as OurData, Fid, Gid, Names, Qid, Qids, Refusal, Tag, Text};

use super::{unequal, Found, SOUND};
use crate::compare::{differs, start};
use crate::theirs::refusal;

/// A buffer for the elements of a walk, which no record has two of. Who takes it leaves an empty one.
pub type Room<'a> = Cell<&'a mut [u8]>;

pub trait Beside<'a, Theirs>: Sized {
    fn difference(&self, theirs: &Theirs) -> Found;

    fn made(theirs: &'a Theirs, room: &Room<'a>) -> Self;
}

macro_rules! numbers {
    ($($number:ty)*) => {
        $(impl<'a> Beside<'a, $number> for $number {
            fn difference(&self, theirs: &$number) -> Found {
                unequal(self, theirs)
            }

            fn made(theirs: &'a $number, _: &Room<'a>) -> Self {
                *theirs
            }
        })*
    };
}

numbers!(u8 u16 u32 u64);

macro_rules! ids {
    ($($id:ident $number:ty;)*) => {
        $(impl<'a> Beside<'a, $number> for $id {
            fn difference(&self, theirs: &$number) -> Found {
                unequal(&self.0, theirs)
            }

            fn made(theirs: &'a $number, _: &Room<'a>) -> Self {
                Self(*theirs)
            }
        })*
    };
}

ids! {
    Fid u32;
    Gid u32;
    Tag u16;
}

/// Of a string the bytes are told, since a wrong one need not be UTF-8.
fn unlike(same: bool, ours: impl FnOnce() -> String, theirs: &impl Show) -> Found {
    match same {
        true => None,
        false => Some(differs(ours(), shown(theirs))),
    }
}

impl<'a> Beside<'a, P9String> for Text<'a> {
    fn difference(&self, theirs: &P9String) -> Found {
        let bytes = self.as_bytes();
        unlike(bytes == theirs.as_bytes(), || start(bytes), theirs)
    }

    fn made(theirs: &'a P9String, _: &Room<'a>) -> Self {
        Text::from_bytes(theirs.as_bytes()).expect("the seller's strings are UTF-8")
    }
}

impl<'a> Beside<'a, Data> for OurData<'a> {
    fn difference(&self, theirs: &Data) -> Found {
        unlike(self.0 == &theirs[..], || start(self), theirs)
    }

    fn made(theirs: &'a Data, _: &Room<'a>) -> Self {
        OurData(theirs)
    }
}

const LONG_ENOUGH: &str = "the room is as long as the frame";

/// One after the other, as a server takes them; `parts` asks for each by its number.
impl<'a> Beside<'a, Vec<P9String>> for Names<'a> {
    fn difference(&self, theirs: &Vec<P9String>) -> Found {
        let bytes = theirs.iter().map(P9String::as_bytes);
        let same = self.iter().map(|name| name.as_str().as_bytes()).eq(bytes);
        let told = || self.iter().map(|name| start(name.as_bytes())).collect();
        unlike(same, told, theirs).or_else(|| unequal(&self.len(), &theirs.len()))
    }

    fn made(theirs: &'a Vec<P9String>, room: &Room<'a>) -> Self {
        let name = |name| <Text as Beside<P9String>>::made(name, room).as_str();
        let names: Vec<&str> = theirs.iter().map(name).collect();
        Names::gather(&names, room.take()).expect(LONG_ENOUGH)
    }
}

impl<'a> Beside<'a, Vec<seller::Qid>> for Qids<'a> {
    fn difference(&self, theirs: &Vec<seller::Qid>) -> Found {
        let mut both = self.iter().zip(theirs);
        both.find_map(|(ours, theirs)| ours.difference(theirs))
            .or_else(|| unequal(&self.iter().count(), &theirs.len()))
            .or_else(|| unequal(&self.len(), &theirs.len()))
    }

    fn made(theirs: &'a Vec<seller::Qid>, room: &Room<'a>) -> Self {
        let qids: Vec<Qid> = theirs.iter().map(|qid| Beside::made(qid, room)).collect();
        Qids::gather(&qids, room.take()).expect(LONG_ENOUGH)
    }
}

/// What is read, or the refusal: of a request's message, a directory entry, a frame.
impl<'a, Theirs, Ours: Beside<'a, Theirs>> Beside<'a, io::Result<Theirs>>
    for Result<Ours, Refusal>
{
    fn difference(&self, theirs: &io::Result<Theirs>) -> Found {
        match (self, theirs) {
            (Ok(ours), Ok(theirs)) => ours.difference(theirs),
            _ => unequal(
                &self.as_ref().err().map(|ours| ours.number()),
                &theirs.as_ref().err().map(refusal),
            ),
        }
    }

    fn made(theirs: &'a io::Result<Theirs>, room: &Room<'a>) -> Self {
        Ok(Beside::made(theirs.as_ref().expect(SOUND), room))
    }
}
