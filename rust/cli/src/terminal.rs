//! What only a terminal gets: colour, and a line that says how far a long file is read.

use std::env;
use std::io::{self, IsTerminal, Write};
use std::time::{Duration, Instant};

/// Nothing is said of a file that is read within this time.
const PATIENCE: Duration = Duration::from_millis(500);

/// How often the line is written again.
const PAUSE: Duration = Duration::from_millis(200);

/// How many letters of a name the line has room for.
const NAME: usize = 40;

/// Goes to the line's start, and clears it.
const CLEAR: &str = "\r\x1b[K";

/// What stands out, and how.
#[derive(Clone, Copy, Debug, PartialEq, Eq)]
pub enum Shade {
    /// Bytes after the last field: worth a look.
    Tail,
    /// A refusal, or a stop.
    Refused,
}

/// Whether colours are wanted.
#[derive(Clone, Copy, Debug, PartialEq, Eq)]
pub struct Paint(pub bool);

impl Paint {
    /// On a terminal that can, unless NO_COLOR holds anything.
    pub fn on(terminal: bool) -> Self {
        let forbidden = env::var_os("NO_COLOR").is_some_and(|value| !value.is_empty());
        Self(terminal && !forbidden && is_able())
    }

    pub fn begin(self, shade: Shade) -> &'static str {
        match (self.0, shade) {
            (false, _) => "",
            (true, Shade::Tail) => "\x1b[33m",
            (true, Shade::Refused) => "\x1b[31m",
        }
    }

    pub fn end(self) -> &'static str {
        match self.0 {
            true => "\x1b[0m",
            false => "",
        }
    }
}

/// Whether it obeys more than line ends.
fn is_able() -> bool {
    env::var_os("TERM").is_some_and(|kind| kind != "dumb" && !kind.is_empty())
}

pub fn error_is_terminal() -> bool {
    io::stderr().is_terminal()
}

/// Whether progress is shown. An output that goes to a terminal shows by itself how far it is, and
/// the two would be mixed.
pub fn is_watched(output_is_terminal: bool) -> bool {
    error_is_terminal() && !output_is_terminal && is_able()
}

/// How far a file is read, on standard error; cleared when it is dropped.
pub struct Progress {
    name: String,
    of: Option<u64>,
    /// None if nobody looks.
    next: Option<Instant>,
    shown: bool,
}

impl Progress {
    /// Of a file that is so long, where that is known.
    pub fn of(name: &str, len: Option<u64>, watched: bool) -> Self {
        Self {
            name: shortened(name),
            of: len.filter(|len| *len > 0),
            next: watched.then(|| Instant::now() + PATIENCE),
            shown: false,
        }
    }

    #[inline]
    pub fn at(&mut self, read: u64) {
        let Some(next) = self.next else { return };
        let now = Instant::now();
        if now >= next {
            let line = format!("{CLEAR}{}: {}", self.name, so_far(read, self.of));
            let _ = io::stderr().write_all(line.as_bytes());
            self.next = Some(now + PAUSE);
            self.shown = true;
        }
    }
}

impl Drop for Progress {
    fn drop(&mut self) {
        if self.shown {
            let _ = io::stderr().write_all(CLEAR.as_bytes());
        }
    }
}

/// The end of a long name, which tells more than its start.
fn shortened(name: &str) -> String {
    let letters = name.chars().count();
    match letters > NAME {
        true => format!(
            "..{}",
            name.chars().skip(letters + 2 - NAME).collect::<String>()
        ),
        false => name.into(),
    }
}

fn so_far(read: u64, of: Option<u64>) -> String {
    let read_in_mb = read / 1_000_000;
    match of {
        Some(of) => {
            let share = (read.min(of) as u128 * 100 / of as u128) as u64;
            format!("{read_in_mb} of {} MB, {share}%", of / 1_000_000)
        }
        None => format!("{read_in_mb} MB"),
    }
}

#[cfg(test)]
mod tests {
    use super::*;

    #[test]
    fn the_line_says_how_far_it_is() {
        assert_eq!(
            so_far(412_345_678, Some(1_000_000_000)),
            "412 of 1000 MB, 41%"
        );
        assert_eq!(
            so_far(7, Some(5)),
            "0 of 0 MB, 100%",
            "a file that has grown"
        );
        assert_eq!(
            so_far(u64::MAX, Some(u64::MAX)),
            "18446744073709 of 18446744073709 MB, 100%"
        );
        assert_eq!(so_far(3_000_000, None), "3 MB");
    }

    #[test]
    fn a_long_name_is_shortened_to_its_end() {
        assert_eq!(shortened("a.bin"), "a.bin");
        let short = shortened(&format!("{}/ö.bin", "ä".repeat(99)));
        assert_eq!(short.chars().count(), NAME);
        assert!(short.starts_with("..ä") && short.ends_with("ä/ö.bin"));
    }
}
