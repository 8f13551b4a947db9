//! Walks written from tables, so that nothing has to be gathered first.

use alloc::vec;

use crate::walks::MOST;
use crate::{ffi, Fid, Qid, Refusal, Tag};

/// What a Twalk has beside its names.
#[derive(Clone, Copy, Debug, PartialEq, Eq)]
pub struct WalkHead {
    /// What its reply bears, too.
    pub tag: Tag,
    /// Where the walk begins.
    pub fid: Fid,
    /// What the client will call the file that is found.
    pub newfid: Fid,
}

/// Writes a Twalk whose names are parts of one text, a row for each: where it starts, and how many
/// bytes it has. Answers the frame's length. Refused, the output is as it was; 5 and 6 tell of a byte of
/// the text.
///
/// ```
/// use sheafsledge::{write_twalk, Fid, Tag, Tframe, Tmessage, WalkHead};
/// let path = "dcim/0001.jpg";
/// let head = WalkHead { tag: Tag(1), fid: Fid(2), newfid: Fid(3) };
/// let mut out = [0; 64];
/// let len = write_twalk(&mut out, path.as_bytes(), head, &[[0, 4], [5, 8]])?;
///
/// let Ok(Tmessage::Walk(walk)) = Tframe::decode(&out[..len])?.frame.msg else { panic!() };
/// assert_eq!(walk.wnames.iter().collect::<Vec<_>>(), ["dcim", "0001.jpg"]);
/// # Ok::<(), sheafsledge::Refusal>(())
/// ```
pub fn write_twalk(
    out: &mut [u8],
    text: &[u8],
    head: WalkHead,
    names: &[[usize; 2]],
) -> Result<usize, Refusal> {
    ffi::write_twalk(out, text, head, names)
}

/// Writes an Rwalk of these qids, and answers the frame's length. Refused, the output is as it was.
///
/// ```
/// use sheafsledge::{write_rwalk, Qid, Tag};
/// let mut out = [0; 64];
/// assert_eq!(write_rwalk(&mut out, Tag(1), &[Qid::default(); 3])?, 48);
/// # Ok::<(), sheafsledge::Refusal>(())
/// ```
pub fn write_rwalk(out: &mut [u8], tag: Tag, qids: &[Qid]) -> Result<usize, Refusal> {
    ffi::write_rwalk(out, tag, qids)
}

/// What names are put together in on the stack: those of a path are mostly no longer.
pub(crate) const SHORT: usize = 512;

/// Names that stand each for itself, no more than a walk has. The library takes one text that the rows
/// point into, so they are put together first: on the stack, or long ones on the heap. The caller does
/// not know that text, so a refusal's place is told in the name.
#[inline(never)]
pub(crate) fn write_names(
    out: &mut [u8],
    head: WalkHead,
    names: &[&str],
) -> Result<usize, Refusal> {
    let mut rows = [[0; 2]; MOST];
    let rows = rows.get_mut(..names.len());
    let rows = rows.ok_or(Refusal::TooManyElements)?;
    let len: usize = names.iter().map(|name| name.len()).sum();
    if len <= SHORT {
        let text = &mut [0; SHORT][..len];
        join(names, text, rows);
        return ffi::write_twalk(out, text, head, rows).map_err(|refusal| in_a_row(refusal, rows));
    }
    let mut text = vec![0; len];
    join(names, &mut text, rows);
    ffi::write_twalk(out, &text, head, rows).map_err(|refusal| in_a_row(refusal, rows))
}

/// A place of the joined text is one of the row that it stands in.
#[cold]
fn in_a_row(refusal: Refusal, rows: &[[usize; 2]]) -> Refusal {
    let holds = |at| move |[start, len]: &&[usize; 2]| (*start..start + len).contains(&at);
    let row = refusal.at().and_then(|at| rows.iter().find(holds(at)));
    row.map_or(refusal, |[start, _]| refusal.counted_from(*start))
}

/// Into as many rows as there are names, and as many bytes as they have.
fn join(names: &[&str], text: &mut [u8], rows: &mut [[usize; 2]]) {
    let mut at = 0;
    for (name, row) in names.iter().zip(rows) {
        *row = [at, name.len()];
        text[at..at + name.len()].copy_from_slice(name.as_bytes());
        at += name.len();
    }
}

#[cfg(test)]
mod tests {
    use super::{write_names, WalkHead};
    use crate::{Fid, Refusal, Tag};

    /// `Names::of` has looked at them, so no caller comes here with such names.
    #[test]
    fn a_place_is_told_in_its_own_name() {
        let long = "a".repeat(600);
        let (tag, fid, newfid) = (Tag(1), Fid(1), Fid(2));
        let head = WalkHead { tag, fid, newfid };
        let refused = |names: &[&str]| write_names(&mut [0; 2048], head, names);
        let zero = |at| Err(Refusal::ZeroByte { at });
        for first in ["", "ab", &long] {
            assert_eq!(refused(&[first, "c\0d\0"]), zero(1));
            assert_eq!(refused(&[first, "", "\0", "\0"]), zero(0));
            assert_eq!(refused(&["c\0", first, "\0"]), zero(1));
        }
    }
}
