//! The elements of walks: names and qids, as they stand on the wire or as the caller has them.

use core::fmt;
use core::iter::FusedIterator;

use crate::fields::{text, Field, Taken};
use crate::{ffi, Qid, Refusal, Text};

/// How many elements a walk has at the most.
pub(crate) const MOST: usize = 16;

/// Where elements are held.
#[derive(Clone, Copy)]
enum Held<'a, E> {
    /// So many whole elements on the wire, which fill the bytes; the constructors see to it.
    Part(u16, &'a [u8]),
    Lent(&'a [E]),
}

impl<'a, E> Held<'a, E> {
    fn len(&self) -> usize {
        match self {
            Self::Part(count, _) => usize::from(*count),
            Self::Lent(elements) => elements.len(),
        }
    }

    /// The caller's elements, which have no part on the wire yet.
    #[inline(always)]
    fn lent(&self) -> Option<&'a [E]> {
        match *self {
            Self::Part(..) => None,
            Self::Lent(elements) => Some(elements),
        }
    }

    /// The count, and the elements on the wire. Lent ones have none: who writes them asks for these
    /// first, and else they are refused, with 17.
    #[inline(always)]
    fn part(&self) -> (u16, &'a [u8]) {
        match *self {
            Self::Part(count, part) => (count, part),
            Self::Lent(_) => (u16::MAX, &[]),
        }
    }
}

/// The names of a Twalk: those of a frame that was read, or the caller's own.
///
/// ```
/// use sheafsledge::Names;
/// let names = Names::of(&["a", "bc"])?;
/// assert_eq!(names.len(), 2);
/// assert_eq!(names.iter().last().unwrap(), "bc");
/// assert_eq!(format!("{names:?}"), r#"["a", "bc"]"#);
/// # Ok::<(), sheafsledge::Refusal>(())
/// ```
#[derive(Clone, Copy)]
pub struct Names<'a>(Held<'a, &'a str>);

impl<'a> Names<'a> {
    /// The caller's names: refused with 17, or as [`Text::new`] refuses the first name that it does; a
    /// place is one of that name's. They stay where they are until the frame is written.
    pub fn of(names: &'a [&'a str]) -> Result<Self, Refusal> {
        counted(names.len())?;
        for name in names {
            Text::new(name)?;
        }
        Ok(Self(Held::Lent(names)))
    }

    /// Puts names into a lent buffer, as a Twalk holds them, so that they need not be kept: refused
    /// as by [`Names::of`], or with 11, and then the buffer is as it was.
    ///
    /// ```
    /// use sheafsledge::Names;
    /// let mut buffer = [0; 16];
    /// let names = {
    ///     let name = String::from("a");
    ///     Names::gather(&[&name, "bc"], &mut buffer)?
    /// };
    /// assert_eq!(names, Names::of(&["a", "bc"])?);
    /// # Ok::<(), sheafsledge::Refusal>(())
    /// ```
    pub fn gather(names: &[&str], buffer: &'a mut [u8]) -> Result<Self, Refusal> {
        let lent = Names::of(names)?;
        let count = counted(names.len())?;
        let part = buffer.get_mut(..lent.part_size());
        let part = part.ok_or(Refusal::NoRoom)?;
        let mut rest = &mut *part;
        for name in names {
            let (place, after) = rest.split_at_mut(2 + name.len());
            // None is longer than a count can say: `of` has looked.
            place[..2].copy_from_slice(&(name.len() as u16).to_le_bytes());
            place[2..].copy_from_slice(name.as_bytes());
            rest = after;
        }
        Ok(Self::accepted(count, part))
    }

    /// How many bytes the elements are on the wire.
    pub(crate) fn part_size(&self) -> usize {
        match self.0 {
            Held::Part(_, part) => part.len(),
            Held::Lent(names) => names.iter().map(|name| 2 + name.len()).sum(),
        }
    }

    /// Name `i` from 0 on; refused with 15 where there is none. Of a frame's names it is found by the
    /// library's own function, which checks all of them each time: `iter` is the faster way.
    ///
    /// ```
    /// # use sheafsledge::{Names, Refusal};
    /// let names = Names::of(&["a", "bc"])?;
    /// assert_eq!(names.get(1)?, "bc");
    /// assert_eq!(names.get(2), Err(Refusal::NoSuchElement));
    /// # Ok::<(), Refusal>(())
    /// ```
    pub fn get(&self, i: usize) -> Result<Text<'a>, Refusal> {
        let name = match self.0 {
            Held::Part(count, part) => {
                let [start, len] = ffi::name_at(part, count, i)?;
                text(part, start as usize, len as usize)
            }
            Held::Lent(names) => names.get(i).ok_or(Refusal::NoSuchElement)?,
        };
        Ok(Text::accepted(name))
    }

    /// The names in their order.
    #[inline]
    pub fn iter(&self) -> NamesIter<'a> {
        NamesIter(self.0)
    }
}

/// The names of a Twalk in their order, see [`Names::iter`].
#[derive(Clone)]
pub struct NamesIter<'a>(Held<'a, &'a str>);

impl<'a> Iterator for NamesIter<'a> {
    type Item = Text<'a>;

    #[inline]
    fn next(&mut self) -> Option<Text<'a>> {
        let name = match &mut self.0 {
            Held::Part(left, rest) => {
                *left = left.checked_sub(1)?;
                let (count, after) = rest.split_first_chunk()?;
                let len = usize::from(u16::from_le_bytes(*count));
                let name = text(rest, 2, len);
                *rest = after.get(len..)?;
                name
            }
            Held::Lent(rest) => {
                let (name, after) = rest.split_first()?;
                *rest = after;
                name
            }
        };
        Some(Text::accepted(name))
    }

    fn size_hint(&self) -> (usize, Option<usize>) {
        (self.0.len(), Some(self.0.len()))
    }
}

/// The qids of an Rwalk: those of a frame that was read, or the caller's own.
///
/// ```
/// use sheafsledge::{Qid, Qids};
/// let walked = [Qid { ty: 0x80, version: 0, path: 7 }; 3];
/// let qids = Qids::from(&walked[..]);
/// assert_eq!(qids.len(), 3);
/// assert_eq!(qids.iter().last(), Some(walked[2]));
/// ```
#[derive(Clone, Copy)]
pub struct Qids<'a>(Held<'a, Qid>);

/// How many bytes a qid is on the wire.
const QID: usize = 13;

impl<'a> Qids<'a> {
    /// Puts qids into a lent buffer, as an Rwalk holds them, so that they need not be kept: refused
    /// with 17 or 11, and then the buffer is as it was.
    pub fn gather(qids: &[Qid], buffer: &'a mut [u8]) -> Result<Self, Refusal> {
        let count = counted(qids.len())?;
        let part = buffer.get_mut(..QID * qids.len()).ok_or(Refusal::NoRoom)?;
        for (place, qid) in part.chunks_exact_mut(QID).zip(qids) {
            place[0] = qid.ty;
            place[1..5].copy_from_slice(&qid.version.to_le_bytes());
            place[5..].copy_from_slice(&qid.path.to_le_bytes());
        }
        Ok(Self::accepted(count, part))
    }

    /// How many bytes the elements are on the wire.
    pub(crate) fn part_size(&self) -> usize {
        QID * self.len()
    }

    /// Qid `i` from 0 on; refused with 15 where there is none. Of a frame's qids it is found by the
    /// library's own functions.
    pub fn get(&self, i: usize) -> Result<Qid, Refusal> {
        match self.0 {
            Held::Part(count, part) => {
                let [start, _] = ffi::qid_at(part, count, i)?;
                let values = ffi::read_qid(part, start as usize)?;
                let (values, frame) = (values.iter(), part);
                Ok(Qid::take(&mut Taken { values, frame }))
            }
            Held::Lent(qids) => qids.get(i).copied().ok_or(Refusal::NoSuchElement),
        }
    }

    /// The qids in their order.
    #[inline]
    pub fn iter(&self) -> QidsIter<'a> {
        QidsIter(self.0)
    }
}

/// More than a walk can have are refused, with 17, when they are written.
impl<'a> From<&'a [Qid]> for Qids<'a> {
    fn from(qids: &'a [Qid]) -> Self {
        Self(Held::Lent(qids))
    }
}

/// The qids of an Rwalk in their order, see [`Qids::iter`].
#[derive(Clone)]
pub struct QidsIter<'a>(Held<'a, Qid>);

impl Iterator for QidsIter<'_> {
    type Item = Qid;

    #[inline]
    fn next(&mut self) -> Option<Qid> {
        match &mut self.0 {
            Held::Part(left, rest) => {
                *left = left.checked_sub(1)?;
                let (qid, after) = rest.split_first_chunk::<QID>()?;
                *rest = after;
                let [ty, version @ .., _, _, _, _, _, _, _, _] = *qid;
                let [_, _, _, _, _, path @ ..] = *qid;
                let (version, path) = (u32::from_le_bytes(version), u64::from_le_bytes(path));
                Some(Qid { ty, version, path })
            }
            Held::Lent(rest) => {
                let (qid, after) = rest.split_first()?;
                *rest = after;
                Some(*qid)
            }
        }
    }

    fn size_hint(&self) -> (usize, Option<usize>) {
        (self.0.len(), Some(self.0.len()))
    }
}

/// A walk's count: refused with 17 where it is above sixteen.
fn counted(len: usize) -> Result<u16, Refusal> {
    match len {
        0..=MOST => Ok(len as u16),
        _ => Err(Refusal::TooManyElements),
    }
}

macro_rules! elements {
    ($($elements:ident $iter:ident $element:ty, $lent:ty;)*) => {
        $(
            impl<'a> $elements<'a> {
                #[inline(always)]
                pub(crate) fn accepted(count: u16, part: &'a [u8]) -> Self {
                    Self(Held::Part(count, part))
                }

                /// How many there are.
                pub fn len(&self) -> usize {
                    self.0.len()
                }

                /// Whether there is none, as where a fid walks to itself.
                pub fn is_empty(&self) -> bool {
                    self.len() == 0
                }

                #[inline(always)]
                pub(crate) fn lent(&self) -> Option<&'a [$lent]> {
                    self.0.lent()
                }

                #[inline(always)]
                pub(crate) fn part(&self) -> (u16, &'a [u8]) {
                    self.0.part()
                }
            }

            impl ExactSizeIterator for $iter<'_> {}

            impl FusedIterator for $iter<'_> {}

            impl<'a> IntoIterator for $elements<'a> {
                type Item = $element;
                type IntoIter = $iter<'a>;

                fn into_iter(self) -> $iter<'a> {
                    self.iter()
                }
            }

            impl<'a> IntoIterator for &$elements<'a> {
                type Item = $element;
                type IntoIter = $iter<'a>;

                fn into_iter(self) -> $iter<'a> {
                    self.iter()
                }
            }

            /// Equal elements, wherever they are held.
            impl PartialEq for $elements<'_> {
                fn eq(&self, other: &Self) -> bool {
                    self.iter().eq(other.iter())
                }
            }

            impl Eq for $elements<'_> {}

            impl Default for $elements<'_> {
                fn default() -> Self {
                    Self::accepted(0, &[])
                }
            }

            impl fmt::Debug for $elements<'_> {
                fn fmt(&self, f: &mut fmt::Formatter) -> fmt::Result {
                    f.debug_list().entries(self).finish()
                }
            }

            impl fmt::Debug for $iter<'_> {
                fn fmt(&self, f: &mut fmt::Formatter) -> fmt::Result {
                    f.debug_list().entries(self.clone()).finish()
                }
            }
        )*
    };
}

elements! {
    Names NamesIter Text<'a>, &'a str;
    Qids QidsIter Qid, Qid;
}
