//! Large writes, cut into Twrites no longer than the msize that was agreed on.

use core::iter::FusedIterator;
use core::slice;

use crate::{ffi, Data, Fid, Refusal, Twrite};

/// Plans the Twrites of `len` bytes from offset `first` of a file on, each frame no longer than
/// `msize`, into the first rows of the table: a row is a piece, its offset and its length. Answers
/// these rows. All pieces but the last are as long as a frame of that msize holds, so there is no plan
/// with fewer; of nothing to write there are none.
///
/// Refused, the table is as it was: with 26 if the msize is below 24, with 27 if the end is above
/// 18,446,744,073,709,551,615, and with 24 if the table has fewer rows than any plan has pieces.
///
/// ```
/// use sheafsledge::{plan_writes, Refusal};
/// let mut table = [[0; 2]; 4];
/// let plan = plan_writes(&mut table, 100, 5, 25)?;
/// assert_eq!(plan, [[100, 2], [102, 2], [104, 1]]);
///
/// assert_eq!(plan_writes(&mut table, 100, 5, 24), Err(Refusal::TableFull));
/// assert_eq!(plan_writes(&mut table, 100, 5, 23), Err(Refusal::MsizeTooSmall));
/// assert_eq!(plan_writes(&mut table, u64::MAX, 1, 24), Err(Refusal::EndTooFar));
/// assert_eq!(table[..3], [[100, 2], [102, 2], [104, 1]]);
/// # Ok::<(), Refusal>(())
/// ```
pub fn plan_writes(
    table: &mut [[u64; 2]],
    first: u64,
    len: u64,
    msize: u32,
) -> Result<&[[u64; 2]], Refusal> {
    let pieces = ffi::plan(table, first, len, msize)?;
    Ok(&table[..pieces])
}

/// Whether pieces are a plan of `len` bytes from offset `first` on: none is empty, they run on from
/// the first offset to the end with neither gap nor overlap, and each frame, 23 bytes and its data,
/// fits the msize, with at most 33,554,432 bytes of data. No, also of no pieces, where
/// [`plan_writes`] is refused with 26 or 27.
///
/// ```
/// use sheafsledge::accepts_plan;
/// assert!(accepts_plan(&[[100, 1], [101, 2], [103, 2]], 100, 5, 25));
/// assert!(!accepts_plan(&[[100, 2], [102, 2], [103, 1]], 100, 5, 25), "an overlap");
/// assert!(!accepts_plan(&[[100, 5], [105, 0]], 100, 5, 28), "an empty piece");
/// assert!(!accepts_plan(&[[100, 5]], 100, 5, 27), "a frame too long");
/// assert!(accepts_plan(&[], 100, 0, 24) && !accepts_plan(&[], 100, 0, 23));
/// ```
pub fn accepts_plan(pieces: &[[u64; 2]], first: u64, len: u64, msize: u32) -> bool {
    ffi::accepts(pieces, first, len, msize)
}

/// The Twrites by which these bytes go to offset `first` of a file, one for each piece of a plan,
/// ours or another. None if [`accepts_plan`] says no of the plan.
///
/// ```
/// use sheafsledge::{plan_writes, twrites, Fid, Tag, Tframe, Tmessage};
/// let (correction, msize) = (b"leap seconds", 31);
/// let mut table = [[0; 2]; 8];
/// let plan = plan_writes(&mut table, 40, correction.len() as u64, msize)?;
///
/// let mut out = [0; 31];
/// for write in twrites(Fid(1), 40, correction, plan, msize).expect("it is accepted") {
///     let frame = Tframe { tag: Tag(1), msg: Ok(Tmessage::Write(write)) };
///     let len = frame.encode(&mut out)?;
///     // Send out[..len], and look at how many bytes the Rwrite says were taken.
/// #   assert!(len <= 31);
/// }
/// # Ok::<(), sheafsledge::Refusal>(())
/// ```
pub fn twrites<'a>(
    fid: Fid,
    first: u64,
    bytes: &'a [u8],
    plan: &'a [[u64; 2]],
    msize: u32,
) -> Option<Twrites<'a>> {
    accepts_plan(plan, first, bytes.len() as u64, msize).then(|| Twrites {
        fid,
        rest: bytes,
        pieces: plan.iter(),
    })
}

/// See [`twrites`].
#[derive(Clone, Debug)]
pub struct Twrites<'a> {
    fid: Fid,
    /// As many bytes as the pieces that are left have together, since the plan was accepted.
    rest: &'a [u8],
    pieces: slice::Iter<'a, [u64; 2]>,
}

impl<'a> Iterator for Twrites<'a> {
    type Item = Twrite<'a>;

    fn next(&mut self) -> Option<Twrite<'a>> {
        let [offset, len] = *self.pieces.next()?;
        let (data, rest) = self.rest.split_at(len as usize);
        self.rest = rest;
        Some(Twrite {
            fid: self.fid,
            offset,
            data: Data(data),
        })
    }

    fn size_hint(&self) -> (usize, Option<usize>) {
        self.pieces.size_hint()
    }
}

impl ExactSizeIterator for Twrites<'_> {}

impl FusedIterator for Twrites<'_> {}
