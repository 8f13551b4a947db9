//! The seller's answers to the questions that compare/list writes, in the words of our cases.

use std::io;

use judge::refusal::digits;
use judge::{judge, written, Direction, Verdict};
use p9::protocol::{P9String, Tframe, Tmessage, Tversion, Twalk};
use p9::show::hex;

/// The seller's answer to a frame.
pub fn answer(direction: Direction, frame: &[u8]) -> String {
    let again = |written: Result<Vec<u8>, _>| match written {
        Ok(bytes) => hex(&bytes),
        Err(error) => digits(&error),
    };
    match judge(direction, frame) {
        Verdict::Accepted(frame) => {
            let (ty, tag, used) = (frame.ty, frame.tag, frame.used);
            format!("accepted {ty} {tag} {used} {}", again(frame.written))
        }
        Verdict::Refused { tagged, error } => match tagged {
            Some(frame) => {
                let (tag, again) = (frame.tag, again(frame.written));
                format!("refused {} {tag} {again}", digits(&error))
            }
            None => format!("refused {} -", digits(&error)),
        },
        Verdict::Panicked { text } => format!("panicked {text:?}"),
    }
}

/// The seller's answer to a Tversion of that many letters.
pub fn letters(count: usize) -> String {
    length(
        'S',
        P9String::new(vec![b'a'; count]).and_then(|version| {
            encoded(Tmessage::Version(Tversion {
                msize: 8192,
                version,
            }))
        }),
    )
}

/// The seller's answer to a Twalk of that many empty names.
pub fn names(count: usize) -> String {
    length(
        'W',
        P9String::new(Vec::new()).and_then(|name| {
            encoded(Tmessage::Walk(Twalk {
                fid: 1,
                newfid: 2,
                wnames: vec![name; count],
            }))
        }),
    )
}

fn encoded(msg: Tmessage) -> io::Result<Vec<u8>> {
    written(&Tframe {
        tag: 65_535,
        msg: Ok(msg),
    })
}

fn length(asked: char, frame: io::Result<Vec<u8>>) -> String {
    match frame {
        Ok(bytes) => format!("{asked} at {}", bytes.len()),
        Err(error) => format!("{asked} refused {}", digits(&error)),
    }
}
