//! Capture files: pcap with microseconds, version 2.4, link type 147, a frame a record.
//!
//! [`import`] makes a stretch of one, with the times of its frames in a table, and [`export`] a file of
//! a stretch and such a table. What is exported is imported again as the same frames and times; what
//! is imported is exported again as the same file, if that is little endian, with zone 0, accuracy 0
//! and snapshot length 65,535. Both are proved.

use core::iter::FusedIterator;
use core::slice;

use crate::{ffi, stretch, Listed, Refusal, Stop, Stretch};

/// What stands before the records of a file.
pub const HEADER: usize = 24;

/// What stands before the frame of a record.
pub const RECORD: usize = 16;

/// What was imported: as much of the lent room as is filled.
#[derive(Clone, Copy, Debug, PartialEq, Eq)]
pub struct Import<'a> {
    /// The frames back to back.
    pub stretch: &'a [u8],
    /// The time of each, in seconds and microseconds.
    pub times: &'a [[u32; 2]],
}

impl<'a> Import<'a> {
    /// The frames with their times.
    pub fn records(&self) -> Records<'a> {
        records(self.stretch, self.times)
    }
}

/// Makes a stretch of the frames of a capture file, over the first bytes of `out`, and puts their
/// times over the first rows of the table. A room as long as the file, and a row for every 23 bytes of
/// it, are always enough. Bodies are not read, and the zone, the accuracy, the snapshot length and the
/// microseconds may be anything.
///
/// Refused, nothing that was lent differs: with 25 if the header is another, or if a record is cut, or
/// its two lengths differ, or are below 7, above 65,535 or not the frame's size; `at` is where that
/// record starts, and 0 for the header. Then with 24 if the table has fewer rows than there are frames,
/// then with 11 if there is less room, both with 0.
///
/// ```
/// use sheafsledge::{pcap, Refusal};
/// let frame = [7, 0, 0, 0, 108, 1, 0];
/// let mut file = [0; 47];
/// assert_eq!(pcap::export(&mut file, &frame, &[[1_700_000_000, 250_000]])?, 47);
///
/// let (mut out, mut times) = ([0; 47], [[0; 2]; 2]);
/// let import = pcap::import(&mut out, &mut times, &file)?;
/// assert_eq!((import.stretch, import.times), (&frame[..], &[[1_700_000_000, 250_000]][..]));
///
/// let cut = pcap::import(&mut out, &mut times, &file[..46]).unwrap_err();
/// assert_eq!((cut.refusal, cut.at), (Refusal::Capture, 24));
/// # Ok::<(), sheafsledge::Stop>(())
/// ```
pub fn import<'a>(
    out: &'a mut [u8],
    times: &'a mut [[u32; 2]],
    file: &[u8],
) -> Result<Import<'a>, Stop> {
    let (bytes, frames) = ffi::import(out, times, file)?;
    Ok(Import {
        stretch: &out[..bytes],
        times: &times[..frames],
    })
}

/// Makes a capture file of a stretch, over the first bytes of `out`, with the time of each frame from
/// its row, and answers how long the file is: [`HEADER`], [`RECORD`] for each frame, and the stretch. It
/// is little endian, with zone 0, accuracy 0 and snapshot length 65,535. Rows after the last frame's are
/// passed over.
///
/// Refused, `out` is as it was: with 12 or 13 if the stretch breaks off, then with 25 if a frame is
/// longer than 65,535 bytes, both with its position; then with 24 if there are more frames than rows,
/// then with 11 if there is less room, both with 0.
///
/// ```
/// use sheafsledge::{pcap, Refusal};
/// let (frame, mut file) = ([7, 0, 0, 0, 108, 1, 0], [0; 46]);
/// let mut refused = |frame, times| pcap::export(&mut file, frame, times).unwrap_err().refusal;
/// assert_eq!(refused(&frame[..6], &[]), Refusal::StretchCut);
/// assert_eq!(refused(&frame[..], &[]), Refusal::TableFull);
/// assert_eq!(refused(&frame[..], &[[0; 2]]), Refusal::NoRoom);
/// ```
pub fn export(out: &mut [u8], stretch: &[u8], times: &[[u32; 2]]) -> Result<usize, Stop> {
    ffi::export(out, stretch, times)
}

/// The frames of a stretch, each with the time of its row: what [`import`] filled, or what [`export`] is
/// to be lent. Where the stretch breaks off, the last item says so, and where the rows end before it
/// does, 24 with the position of the frame that has none.
///
/// ```
/// use sheafsledge::{pcap, Refusal, Tag};
/// let two = [7, 0, 0, 0, 108, 1, 0, 7, 0, 0, 0, 109, 1, 0];
/// let mut records = pcap::records(&two, &[[5, 6]]);
/// let record = records.next().unwrap()?;
/// assert_eq!((record.seconds, record.micros, record.frame.tag), (5, 6, Tag(1)));
/// let stop = records.next().unwrap().unwrap_err();
/// assert_eq!((stop.refusal, stop.at), (Refusal::TableFull, 7));
/// assert!(records.next().is_none());
/// # Ok::<(), sheafsledge::Stop>(())
/// ```
pub fn records<'a>(bytes: &'a [u8], times: &'a [[u32; 2]]) -> Records<'a> {
    Records {
        frames: Some(stretch(bytes)),
        times: times.iter(),
    }
}

/// A frame, and when it was seen.
#[derive(Clone, Copy, Debug, PartialEq, Eq)]
pub struct Record<'a> {
    /// Whole seconds.
    pub seconds: u32,
    /// And microseconds, which a file may have more than a million of.
    pub micros: u32,
    /// The frame, as a listing has it.
    pub frame: Listed<'a>,
}

/// See [`records`].
#[derive(Clone, Debug)]
pub struct Records<'a> {
    /// None once it was said where they break off.
    frames: Option<Stretch<'a>>,
    times: slice::Iter<'a, [u32; 2]>,
}

impl<'a> Iterator for Records<'a> {
    type Item = Result<Record<'a>, Stop>;

    fn next(&mut self) -> Option<Self::Item> {
        let record = match self.frames.as_mut()?.next()? {
            Err(stop) => Err(stop),
            Ok(frame) => match self.times.next() {
                Some(&[seconds, micros]) => Ok(Record {
                    seconds,
                    micros,
                    frame,
                }),
                None => Err(Stop {
                    at: frame.at,
                    refusal: Refusal::TableFull,
                }),
            },
        };
        if record.is_err() {
            self.frames = None;
        }
        Some(record)
    }
}

impl FusedIterator for Records<'_> {}
