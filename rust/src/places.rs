//! Where the fields of a listed frame stand in the stretch, for who shows its bytes.

use core::iter::FusedIterator;
use core::marker::PhantomData;
use core::ops::Range;

use crate::frames::HEADER;
use crate::plain::Stat;
use crate::stretch::{Held, Listed};
use crate::{unix, Data, Fid, Gid, Names, Qid, Qids, Tag, Text};

/// What a field holds.
#[derive(Clone, Copy, Debug, PartialEq, Eq)]
pub enum Value<'a> {
    /// A number of any width, a fid, a gid or a tag.
    Number(u64),
    /// A string.
    Text(Text<'a>),
    /// The data of a Twrite, an Rread or an Rreaddir.
    Data(Data<'a>),
    /// The names of a Twalk.
    Names(Names<'a>),
    /// The qids of an Rwalk.
    Qids(Qids<'a>),
    /// A qid, whose three numbers are one field.
    Qid(Qid),
    /// A stat of 9P2000, which is one field too.
    Stat(Stat<'a>),
    /// A stat of 9P2000.u.
    UnixStat(unix::Stat<'a>),
}

impl<'a> Value<'a> {
    /// Its field of that number, from 0 on, where it is a stat.
    fn field(&self, number: usize) -> Option<Named<'a>> {
        match self {
            Self::Stat(stat) => stat.field(number),
            Self::UnixStat(stat) => stat.field(number),
            _ => None,
        }
    }

    /// The fields of a stat by their names, in their order; nothing of other values.
    pub fn parts(self) -> impl Iterator<Item = (&'static str, Value<'a>)> {
        let fields = (0..).map_while(move |number| self.field(number));
        fields.map(|Named { name, value, .. }| (name, value))
    }

    /// How many bytes its count is on the wire, where it has one; a stat has a size as well.
    fn count(&self) -> usize {
        match self {
            Self::Number(_) | Self::Qid(_) => 0,
            Self::Text(_) | Self::Names(_) | Self::Qids(_) => 2,
            Self::Data(_) | Self::Stat(_) | Self::UnixStat(_) => 4,
        }
    }
}

macro_rules! values {
    ($($case:ident: $($from:ty),+;)*) => {
        $($(impl<'a> From<$from> for Value<'a> {
            fn from(held: $from) -> Self {
                Self::$case(held.into())
            }
        })+)*
    };
}

values! {
    Number: u8, u16, u32, u64;
    Text: Text<'a>;
    Data: Data<'a>;
    Names: Names<'a>;
    Qids: Qids<'a>;
    Qid: Qid;
    Stat: Stat<'a>;
    UnixStat: unix::Stat<'a>;
}

macro_rules! ids {
    ($($id:ident)*) => {
        $(impl From<$id> for Value<'_> {
            fn from(id: $id) -> Self {
                id.0.into()
            }
        })*
    };
}

ids!(Fid Gid Tag);

/// A field by its name, and how many bytes it is on the wire.
#[derive(Clone, Copy)]
pub struct Named<'a> {
    pub name: &'static str,
    pub size: usize,
    pub value: Value<'a>,
}

/// A field of a listed frame, and where it stands.
#[derive(Clone, Debug, PartialEq, Eq)]
pub struct FieldAt<'a> {
    /// Its name in the record.
    pub name: &'static str,
    /// All its bytes in the stretch: its count, too, where it has one.
    pub range: Range<usize>,
    /// What it holds.
    pub value: Value<'a>,
}

impl<'a> FieldAt<'a> {
    /// Its bytes without its count: those of the text, the data, the elements or the stat's fields alone.
    pub fn shown(&self) -> Range<usize> {
        self.range.start + self.value.count()..self.range.end
    }

    /// The fields of a stat, and where each stands; nothing of other fields. They come after its count and
    /// its size.
    pub fn parts(&self) -> impl Iterator<Item = FieldAt<'a>> {
        let (value, mut at) = (self.value, self.shown().start);
        (0..).map_while(move |number| {
            let Named { name, size, value } = value.field(number)?;
            let start = at;
            at += size;
            let range = start..at;
            Some(FieldAt { name, range, value })
        })
    }

    /// Each string that it holds, and where its letters stand: a string itself, the names of a walk, the
    /// strings of a stat, each without its count. Nothing of other fields.
    pub fn texts(&self) -> impl Iterator<Item = (Range<usize>, Text<'a>)> {
        let (text, names, mut at) = match self.value {
            Value::Text(text) => (Some(text), Names::default(), self.range.start),
            Value::Names(names) => (None, names, self.shown().start),
            _ => (None, Names::default(), self.range.end),
        };
        let own = text.into_iter().chain(names).map(move |text| {
            let start = at + Value::Text(text).count();
            at = start + text.len();
            (start..at, text)
        });
        own.chain(self.parts().filter_map(|part| match part.value {
            Value::Text(text) => Some((part.shown(), text)),
            _ => None,
        }))
    }
}

impl<B> Listed<B> {
    /// Where its size, its type and its tag stand.
    pub fn header_range(&self) -> Range<usize> {
        self.at..self.at + HEADER
    }

    /// Its fields in the layout's order, and where each stands in the stretch; none where the body is
    /// refused. The header, the fields and the tail of a frame that is not have each of its bytes
    /// once.
    ///
    /// ```
    /// use sheafsledge::{stretch, Value};
    /// // An Rflush, and a Tversion at byte 7.
    /// let bytes = b"\x07\0\0\0\x6d\x01\0\x13\0\0\0\x64\xff\xff\0\x20\0\0\x06\09P2000";
    /// let version = stretch(bytes).last().unwrap()?;
    /// assert_eq!((version.position(), version.header_range()), (7, 7..14));
    ///
    /// let [msize, version] = [0, 1].map(|i| version.fields().nth(i).unwrap());
    /// assert_eq!((msize.name, msize.range, msize.value), ("msize", 14..18, Value::Number(8192)));
    /// assert_eq!((version.name, &version.range), ("version", &(18..26)));
    /// assert_eq!(&bytes[version.shown()], b"9P2000");
    /// # Ok::<(), sheafsledge::Stop>(())
    /// ```
    pub fn fields<'a>(&self) -> Fields<'a, B>
    where
        B: Held<'a>,
    {
        Fields {
            body: self.body,
            number: 0,
            at: self.header_range().end,
            bytes: PhantomData,
        }
    }

    /// Where the bytes after its last field stand; an empty range where there are none, or the body
    /// is refused.
    pub fn tail_range(&self) -> Range<usize> {
        self.next - self.tail..self.next
    }
}

/// The fields of a listed frame, see [`Listed::fields`].
#[derive(Clone, Copy, Debug)]
pub struct Fields<'a, B> {
    body: B,
    number: usize,
    at: usize,
    bytes: PhantomData<&'a [u8]>,
}

impl<'a, B: Held<'a>> Iterator for Fields<'a, B> {
    type Item = FieldAt<'a>;

    fn next(&mut self) -> Option<FieldAt<'a>> {
        let Named { name, size, value } = self.body.field(self.number)?;
        let start = self.at;
        self.number += 1;
        self.at += size;
        let range = start..self.at;
        Some(FieldAt { name, range, value })
    }
}

impl<'a, B: Held<'a>> FusedIterator for Fields<'a, B> {}
