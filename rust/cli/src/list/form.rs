//! What a listing looks like.

use std::io;

use sheafsledge::any::Listed;

use crate::dialect::Dialect;
use crate::recording::{Broken, Ended, Row};

use super::summary::Summary;

/// What a frame of a form's dialect holds.
pub type BodyOf<'a, F> = <<F as Form>::Dialect as Dialect>::Body<'a>;

/// A way to write a listing of frames of a dialect.
pub trait Form {
    type Dialect: Dialect;
    /// `heading` where the listing is one of several.
    fn begin(&mut self, heading: Option<&str>, text: &mut Vec<u8>);
    fn row(&mut self, row: &Row, text: &mut Vec<u8>);
    /// Of a frame with a string that breaks, after its row and maybe others.
    fn broken(&mut self, _: &Broken, _: &mut Vec<u8>) {}
    /// Of each frame after its row, if `frame` is asked what it holds. It tells as if the frame were
    /// alone.
    fn body<'a>(
        &mut self,
        _: &Row,
        _frame: impl FnOnce() -> Listed<BodyOf<'a, Self>>,
        _: &mut Vec<u8>,
    ) where
        Self: Sized,
    {
    }
    /// Before the end of a recording, if `bytes` is asked how long that is.
    fn rest(
        &mut self,
        _: &Ended,
        _bytes: impl FnOnce() -> io::Result<u64>,
        _: &mut Vec<u8>,
    ) -> io::Result<()> {
        Ok(())
    }
    fn end(&mut self, ended: &Ended, frames: u64, text: &mut Vec<u8>);

    /// What it has counted by itself.
    fn summed(&self, _: &mut Summary) {}
}
