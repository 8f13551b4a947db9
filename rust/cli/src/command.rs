//! What a subcommand says of itself: from this its words are read, and its help is printed.

use crate::status::{Failure, Status};
use crate::words::{Opt, Words};

pub struct Command {
    pub name: &'static str,
    /// One line, for the list of commands.
    pub says: &'static str,
    /// The words after its name.
    pub usage: &'static str,
    /// What it does, in lines of at most 79 letters.
    pub about: &'static str,
    pub options: &'static [Opt],
    /// Words that a reader can type as they stand, after `sheafsledge`.
    pub examples: &'static [&'static str],
    /// When it is 0 and when 1, after `Status: `; the others mean the same for all.
    pub status: &'static str,
    pub run: fn(&Words) -> Result<Status, Failure>,
}
