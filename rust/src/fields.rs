//! Between a record's fields and the flat values that cross to the library.

use crate::walks::{Names, Qids};
use crate::{Data, Fid, Gid, Qid, Tag, Text};

/// What was read: the values in the layout's order, and the bytes that spans point into: a frame's, or
/// those that a directory entry stands in.
pub struct Taken<'a, 'v> {
    pub values: core::slice::Iter<'v, u64>,
    pub frame: &'a [u8],
}

impl<'a> Taken<'a, '_> {
    /// An accepted frame has all its values; 0 stands for none.
    #[inline(always)]
    fn next(&mut self) -> u64 {
        self.values.next().copied().unwrap_or(0)
    }

    #[inline(always)]
    fn place(&mut self) -> (usize, usize) {
        (self.next() as usize, self.next() as usize)
    }

    #[inline(always)]
    fn span(&mut self) -> &'a [u8] {
        let (start, len) = self.place();
        shown(self.frame, start, len)
    }
}

/// The library is proved to give spans that lie in the bytes; one that didn't would show nothing.
#[inline(always)]
pub fn shown(bytes: &[u8], start: usize, len: usize) -> &[u8] {
    bytes
        .get(start..)
        .and_then(|rest| rest.get(..len))
        .unwrap_or_default()
}

/// A string of accepted bytes: the one place where a `&str` is made of them.
///
/// What makes it safe is that the library found UTF-8 there. Looking once more would double the time
/// that a walk's names take, so it is done where assertions are. What is always looked at is that the
/// string's count stands right before it: with fields in a wrong order, numbers that were taken for a
/// span would show nothing.
#[inline(always)]
#[allow(unsafe_code)]
pub fn text(bytes: &[u8], start: usize, len: usize) -> &str {
    let counted = start.checked_sub(2).and_then(|count| bytes.get(count..));
    let shown = match counted.and_then(<[u8]>::split_first_chunk) {
        Some((count, after)) if usize::from(u16::from_le_bytes(*count)) == len => {
            after.get(..len).unwrap_or_default()
        }
        _ => &[],
    };
    debug_assert!(
        core::str::from_utf8(shown).is_ok(),
        "{shown:?} is no string"
    );
    // SAFETY: the library accepts a frame, an entry or a walk's names only if each string is UTF-8 by
    // RFC 3629 (`read_string`, `read_many`, `element_at`, `utf8` in the definitions); names that were
    // gathered are copies of `&str`.
    unsafe { core::str::from_utf8_unchecked(shown) }
}

/// A record that is being laid out: its values, and the bytes that their spans point into, at most so
/// many slices which count as standing one after the other.
pub struct Filling<'p, 'a, const N: usize, const S: usize> {
    put: &'p mut [u64; N],
    lent: [&'a [u8]; S],
    values: usize,
    slices: usize,
    /// How many bytes the slices have.
    bytes: usize,
}

/// Lays a record's values out, and answers the slices.
#[inline(always)]
pub fn fill<'a, const N: usize, const S: usize>(
    put: &mut [u64; N],
    record: &impl Field<'a>,
) -> [&'a [u8]; S] {
    let mut filling = Filling {
        put,
        lent: [&[]; S],
        values: 0,
        slices: 0,
        bytes: 0,
    };
    record.put(&mut filling);
    filling.lent
}

impl<'a, const N: usize, const S: usize> Filling<'_, 'a, N, S> {
    #[inline(always)]
    fn value(&mut self, value: u64) {
        self.put[self.values] = value;
        self.values += 1;
    }

    #[inline(always)]
    fn span(&mut self, bytes: &'a [u8]) {
        // The others stand before it, if there are any.
        self.value(self.bytes as u64);
        self.value(bytes.len() as u64);
        self.lent[self.slices] = bytes;
        self.slices += 1;
        self.bytes += bytes.len();
    }
}

pub trait Field<'a>: Sized {
    fn take(taken: &mut Taken<'a, '_>) -> Self;
    fn put<const N: usize, const S: usize>(&self, put: &mut Filling<'_, 'a, N, S>);
    /// How many bytes it is on the wire.
    fn size(&self) -> usize;
}

macro_rules! numbers {
    ($($number:ty)*) => {
        $(impl<'a> Field<'a> for $number {
            #[inline(always)]
            fn take(taken: &mut Taken<'a, '_>) -> Self {
                taken.next() as $number
            }

            #[inline(always)]
            fn put<const N: usize, const S: usize>(&self, put: &mut Filling<'_, 'a, N, S>) {
                put.value(u64::from(*self));
            }

            fn size(&self) -> usize {
                size_of::<$number>()
            }
        })*
    };
}

numbers!(u8 u16 u32 u64);

macro_rules! ids {
    ($($id:ident)*) => {
        $(impl<'a> Field<'a> for $id {
            #[inline(always)]
            fn take(taken: &mut Taken<'a, '_>) -> Self {
                Self(Field::take(taken))
            }

            #[inline(always)]
            fn put<const N: usize, const S: usize>(&self, put: &mut Filling<'_, 'a, N, S>) {
                self.0.put(put);
            }

            fn size(&self) -> usize {
                self.0.size()
            }
        })*
    };
}

ids!(Fid Gid Tag);

/// What a message without a record has.
impl<'a> Field<'a> for () {
    #[inline(always)]
    fn take(_: &mut Taken<'a, '_>) -> Self {}

    #[inline(always)]
    fn put<const N: usize, const S: usize>(&self, _: &mut Filling<'_, 'a, N, S>) {}

    fn size(&self) -> usize {
        0
    }
}

impl<'a> Field<'a> for Text<'a> {
    #[inline(always)]
    fn take(taken: &mut Taken<'a, '_>) -> Self {
        let (start, len) = taken.place();
        Text::accepted(text(taken.frame, start, len))
    }

    #[inline(always)]
    fn put<const N: usize, const S: usize>(&self, put: &mut Filling<'_, 'a, N, S>) {
        put.span(self.as_str().as_bytes());
    }

    fn size(&self) -> usize {
        2 + self.len()
    }
}

impl<'a> Field<'a> for Data<'a> {
    #[inline(always)]
    fn take(taken: &mut Taken<'a, '_>) -> Self {
        Data(taken.span())
    }

    #[inline(always)]
    fn put<const N: usize, const S: usize>(&self, put: &mut Filling<'_, 'a, N, S>) {
        put.span(self.0);
    }

    fn size(&self) -> usize {
        4 + self.len()
    }
}

macro_rules! elements {
    ($($elements:ident)*) => {
        $(impl<'a> Field<'a> for $elements<'a> {
            /// The part was accepted, so its elements fill it, and names are UTF-8.
            #[inline(always)]
            fn take(taken: &mut Taken<'a, '_>) -> Self {
                let count = taken.next() as u16;
                Self::accepted(count, taken.span())
            }

            #[inline(always)]
            fn put<const N: usize, const S: usize>(&self, put: &mut Filling<'_, 'a, N, S>) {
                let (count, part) = self.part();
                put.value(u64::from(count));
                put.span(part);
            }

            fn size(&self) -> usize {
                2 + self.part_size()
            }
        })*
    };
}

elements!(Names Qids);

impl<'a> Field<'a> for Qid {
    #[inline(always)]
    fn take(taken: &mut Taken<'a, '_>) -> Self {
        Qid {
            ty: taken.next() as u8,
            version: taken.next() as u32,
            path: taken.next(),
        }
    }

    #[inline(always)]
    fn put<const N: usize, const S: usize>(&self, put: &mut Filling<'_, 'a, N, S>) {
        put.value(u64::from(self.ty));
        put.value(u64::from(self.version));
        put.value(self.path);
    }

    fn size(&self) -> usize {
        self.ty.size() + self.version.size() + self.path.size()
    }
}
