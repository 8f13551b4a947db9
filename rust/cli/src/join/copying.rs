//! A recording that is copied as it is read, up to what may be its trailer.

use std::io::{self, ErrorKind, Read};

use sheafsledge::session::TRAILER;

use crate::input::Input;
use crate::output::Output;
use crate::recording::Source;

use super::mark::Mark;

/// Whatever is read goes into the output too, but for the last bytes, which are held back; and nothing
/// is passed over unread. Without an output the recording is looked at alone.
pub struct Copying<'a> {
    input: Input,
    output: Option<&'a mut Output>,
    /// The last bytes that were read and not passed over, at most a trailer's.
    held: Vec<u8>,
    read: u64,
    /// Why the output can't be written. The reading ends with an error then, which is not the input's.
    pub unwritten: Option<io::Error>,
}

impl<'a> Copying<'a> {
    pub fn new(input: Input, output: Option<&'a mut Output>) -> Self {
        Self {
            input,
            output,
            held: Vec::new(),
            read: 0,
            unwritten: None,
        }
    }

    /// Whether it ends with this mark's trailer, right after the mark. At most one byte more than that
    /// is read.
    pub fn ends_in(&mut self, mark: Mark) -> io::Result<bool> {
        let end = mark.bytes + TRAILER as u64;
        let wanted = (end + 1).saturating_sub(self.read);
        self.copy(wanted)?;
        let trailer = mark.trailer();
        Ok(self.read == end && trailer.is_some_and(|trailer| self.held == trailer))
    }

    /// What was held back is no trailer.
    pub fn release(&mut self) {
        if let Some(output) = &mut self.output {
            output.text().append(&mut self.held);
        }
    }

    /// At most so many bytes; how many there were.
    fn copy(&mut self, count: u64) -> io::Result<u64> {
        let mut room = [0; 1 << 16];
        let mut copied = 0;
        while copied < count {
            let most = (count - copied).min(room.len() as u64) as usize;
            match self.read(&mut room[..most]) {
                Ok(0) => break,
                Ok(read) => copied += read as u64,
                Err(error) if error.kind() == ErrorKind::Interrupted => {}
                Err(error) => return Err(error),
            }
        }
        Ok(copied)
    }

    fn hold(&mut self, bytes: &[u8]) -> io::Result<()> {
        self.read += bytes.len() as u64;
        self.held.extend_from_slice(bytes);
        let over = self.held.len().saturating_sub(TRAILER);
        let settled = match &mut self.output {
            Some(output) => {
                output.text().extend_from_slice(&self.held[..over]);
                output.settle()
            }
            None => Ok(()),
        };
        self.held.drain(..over);
        settled
    }
}

impl Read for Copying<'_> {
    fn read(&mut self, room: &mut [u8]) -> io::Result<usize> {
        let read = self.input.read(room)?;
        if let Err(error) = self.hold(&room[..read]) {
            self.unwritten = Some(error);
            return Err(ErrorKind::Other.into());
        }
        Ok(read)
    }
}

impl Source for Copying<'_> {
    fn pass(&mut self, count: u64) -> io::Result<bool> {
        if self.output.is_some() {
            return Ok(self.copy(count)? == count);
        }
        // It is inside a frame and so in no trailer, of which all is read after the last frame.
        self.read += count;
        self.input.pass(count)
    }

    fn end(&mut self) -> io::Result<u64> {
        if self.output.is_some() {
            self.copy(u64::MAX)?;
        }
        self.input.end()
    }
}
