//! The frames of a recording, up to its trailer if it has one.

use std::io;

use crate::dialect::L;
use crate::list::Summary;
use crate::recording::{Ended, Recording, Row, Source, PIECE};

use super::copying::Copying;
use super::mark::Mark;

/// The last frame that was read. It is not counted yet: the front of a trailer may look like one.
struct Last {
    row: Option<Row>,
    before: Mark,
    after: Mark,
}

/// To where it ends or stops, and what its trailer tells. What is after a stop is only taken where it
/// may stop.
pub fn read(
    source: &mut Copying,
    may_stop: bool,
    summary: &mut Summary,
) -> io::Result<(Ended, Option<Mark>)> {
    let (ended, last) = frames(source, summary)?;
    for (mark, row) in [(last.after, last.row), (last.before, None)] {
        if source.ends_in(mark)? {
            count(row, summary);
            return Ok((Ended::Whole(mark.bytes), Some(mark)));
        }
    }
    count(last.row, summary);
    summary.ended(&ended);
    if may_stop {
        source.end()?;
    }
    source.release();
    Ok((ended, None))
}

fn frames(source: &mut Copying, summary: &mut Summary) -> io::Result<(Ended, Last)> {
    let mut recording = Recording::<_, L>::new(source, PIECE);
    let (row, before, after) = (None, Mark::default(), Mark::default());
    let mut last = Last { row, before, after };
    loop {
        let ended = recording.go_on()?;
        for row in recording.rows() {
            count(last.row.replace(*row), summary);
            (last.before, last.after) = (last.after, last.after.and(row));
        }
        if let Some(ended) = ended {
            return Ok((ended, last));
        }
    }
}

fn count(row: Option<Row>, summary: &mut Summary) {
    if let Some(row) = row {
        summary.row(&row);
    }
}
