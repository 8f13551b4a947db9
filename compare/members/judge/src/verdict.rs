//! One frame, read by the seller's Rust and written again.

use std::cell::Cell;
use std::fmt;
use std::io;
use std::panic::{self, AssertUnwindSafe};
use std::sync::Once;

use p9::protocol::{Rframe, Tframe, WireFormat};
use p9::show::{hex, shown};

use crate::refusal::{digits, told_by};

#[derive(Clone, Copy, Debug, PartialEq, Eq)]
pub enum Direction {
    T,
    R,
}

#[derive(Debug)]
pub enum Verdict {
    Accepted(Accepted),
    Refused {
        tagged: Option<Tagged>,
        error: io::Error,
    },
    Panicked {
        text: String,
    },
}

/// A request whose body is refused is a frame all the same, and `encode` takes it.
#[derive(Debug)]
pub struct Tagged {
    pub tag: u16,
    pub written: io::Result<Vec<u8>>,
}

#[derive(Debug)]
pub struct Accepted {
    pub tag: u16,
    pub used: usize,
    pub ty: u8,
    pub record: String,
    pub written: io::Result<Vec<u8>>,
}

/// A panic is an answer too: in a debug build the seller's sums and differences are checked.
pub fn judge(direction: Direction, bytes: &[u8]) -> Verdict {
    let read = match direction {
        Direction::T => read_t,
        Direction::R => read_r,
    };
    quietly(|| read(bytes)).unwrap_or_else(|text| Verdict::Panicked { text })
}

fn read_t(bytes: &[u8]) -> Verdict {
    let mut rest = bytes;
    match Tframe::decode(&mut rest) {
        Err(error) => headless(error),
        Ok(frame) => match &frame.msg {
            Ok(msg) => accepted(bytes, rest, frame.tag, shown(msg), &frame),
            Err(_) => tagged(frame),
        },
    }
}

fn read_r(bytes: &[u8]) -> Verdict {
    let mut rest = bytes;
    match Rframe::decode(&mut rest) {
        Err(error) => headless(error),
        Ok(frame) => accepted(bytes, rest, frame.tag, shown(&frame.msg), &frame),
    }
}

fn accepted(
    bytes: &[u8],
    rest: &[u8],
    tag: u16,
    record: String,
    frame: &impl WireFormat,
) -> Verdict {
    Verdict::Accepted(Accepted {
        tag,
        used: bytes.len() - rest.len(),
        ty: bytes[4],
        record,
        written: written(frame),
    })
}

fn headless(error: io::Error) -> Verdict {
    Verdict::Refused {
        tagged: None,
        error,
    }
}

fn tagged(frame: Tframe) -> Verdict {
    let (tag, written) = (frame.tag, written(&frame));
    Verdict::Refused {
        tagged: Some(Tagged { tag, written }),
        error: frame.msg.expect_err("the message is a refusal"),
    }
}

pub fn written(frame: &impl WireFormat) -> io::Result<Vec<u8>> {
    let mut out = Vec::new();
    frame.encode(&mut out).map(|()| out)
}

impl fmt::Display for Verdict {
    fn fmt(&self, f: &mut fmt::Formatter) -> fmt::Result {
        match self {
            Verdict::Accepted(accepted) => accepted.fmt(f),
            Verdict::Refused { tagged, error } => {
                let tag = tagged
                    .as_ref()
                    .map_or("-".into(), |tagged| tagged.tag.to_string());
                write!(f, "refused {} tag={tag} {}", digits(error), told_by(error))
            }
            Verdict::Panicked { text } => write!(f, "panicked text={text:?}"),
        }
    }
}

impl fmt::Display for Accepted {
    fn fmt(&self, f: &mut fmt::Formatter) -> fmt::Result {
        write!(
            f,
            "accepted tag={} used={} type={}",
            self.tag, self.used, self.ty
        )?;
        write!(f, " record={} written=", self.record)?;
        match &self.written {
            Ok(bytes) => write!(f, "{}", hex(bytes)),
            Err(error) => write!(f, "refused:{}", digits(error)),
        }
    }
}

thread_local! {
    static SILENT: Cell<bool> = const { Cell::new(false) };
}

/// The text of the panic, if there was one. Only panics in here lose their usual message, so
/// that a fault of our own still shows.
pub fn quietly<T>(ask: impl FnOnce() -> T) -> Result<T, String> {
    static HOOK: Once = Once::new();
    HOOK.call_once(|| {
        let usual = panic::take_hook();
        panic::set_hook(Box::new(move |info| {
            if !SILENT.get() {
                usual(info);
            }
        }));
    });
    SILENT.set(true);
    let answer = panic::catch_unwind(AssertUnwindSafe(ask));
    SILENT.set(false);
    answer.map_err(|payload| match payload.downcast::<String>() {
        Ok(text) => *text,
        Err(payload) => payload
            .downcast::<&str>()
            .map_or("?".into(), |text| text.to_string()),
    })
}
