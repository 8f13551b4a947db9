//! `compare/accident` builds and runs this; see its head for what it shows.

mod frames;
mod requests;
mod server;

use std::io;
use std::process::ExitCode;

use p9::show::hex;
use sheafsledge::Tag;

use frames::{stripped, Tail};
use requests::{OPENING, TAG, TWRITE, TWRITE_OF_48};
use server::{served, Served};

/// Type and tag of the answers to OPENING: Rversion, Rattach, Rwalk, Rlopen.
const OPENED: [(u8, u16); 4] = [(101, 65_535), (105, 1), (111, 2), (13, 3)];

const RWRITE: u8 = 119;

/// What a stream does, with our frames in front or without.
#[derive(Debug, PartialEq, Eq)]
struct Outcome {
    /// What the seller's server was given to read, in hex.
    handed: String,
    served: Served,
    tails: Vec<Tail>,
}

fn seller_alone(stream: &[u8]) -> io::Result<Outcome> {
    handed(stream, Vec::new())
}

fn with_our_frames(stream: &[u8]) -> io::Result<Outcome> {
    let (requests, tails) = stripped(stream)?;
    handed(&requests, tails)
}

fn handed(requests: &[u8], tails: Vec<Tail>) -> io::Result<Outcome> {
    Ok(Outcome {
        handed: hex(requests),
        served: served(requests)?,
        tails,
    })
}

/// A byte in the file and an Rwrite for each Twrite that is run.
fn run(count: usize, requests: &[u8], tails: &[Tail]) -> Outcome {
    Outcome {
        handed: hex(requests),
        served: Served {
            file: vec![b'x'; count],
            answers: [&OPENED[..], &vec![(RWRITE, TAG); count]].concat(),
        },
        tails: tails.to_vec(),
    }
}

fn in_words(Outcome { served, tails, .. }: &Outcome) -> String {
    let plural = |count| if count == 1 { "" } else { "s" };
    let bytes = served.file.len();
    let answers = served.answers.iter().filter(|(_, tag)| *tag == TAG);
    let answers = answers.count();
    let mut words = format!("{bytes} byte{} written, ", plural(bytes));
    words += &format!("{answers} answer{} to tag {TAG}", plural(answers));
    for Tail { bytes, .. } in tails {
        let count = bytes.len();
        words += &format!(", a tail of {count} byte{} reported", plural(count));
    }
    words
}

/// Whether it does what it must, and a line to say what it does.
fn tell(who: &str, outcome: Outcome, must: Outcome) -> bool {
    println!("  {who:<17} {}", in_words(&outcome));
    if outcome != must {
        eprintln!("accident: {outcome:?} should be {must:?}");
    }
    outcome == must
}

fn show() -> io::Result<bool> {
    let stream = |twrites: &[&[u8]]| [OPENING.concat(), twrites.concat()].concat();
    let once = stream(&[TWRITE]);
    let twice = stream(&[TWRITE, TWRITE]);
    let copied = stream(&[TWRITE_OF_48, TWRITE]);
    let copy = Tail {
        tag: Tag(TAG),
        bytes: TWRITE.to_vec(),
    };

    println!("one frame of 48 bytes, a Twrite with its copy after the last field:");
    let (alone, ours) = (seller_alone(&copied)?, with_our_frames(&copied)?);
    let mut good = tell("seller alone:", alone, run(2, &copied, &[]));
    good &= tell("with our frames:", ours, run(1, &once, &[copy]));

    println!("two frames of 24 bytes, the Twrite sent twice:");
    let (alone, ours) = (seller_alone(&twice)?, with_our_frames(&twice)?);
    good &= tell("seller alone:", alone, run(2, &twice, &[]));
    good &= tell("with our frames:", ours, run(2, &twice, &[]));
    Ok(good)
}

fn main() -> ExitCode {
    match show() {
        Ok(true) => ExitCode::SUCCESS,
        Ok(false) => ExitCode::FAILURE,
        Err(error) => {
            eprintln!("accident: {error}");
            ExitCode::FAILURE
        }
    }
}
