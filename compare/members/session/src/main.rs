//! The proved program `replay` beside a second session, on the same files; compare/session says what
//! is tried.

mod beside;
mod by_hand;
mod draw;
mod frames;
mod ours;
mod program;
mod reading;
mod recording;
mod rules;
mod scene;
mod session;
mod tally;
mod trailers;

use std::env;
use std::process::ExitCode;

use p9::draw::Draws;

use recording::{numbers, text, with_trailer};
use tally::Tally;

/// Of one in so many the paths of all fids are compared after each frame, which takes long.
const PATHS_OF: usize = 8;

const RECORDING: &[u8] = include_bytes!("../../../../examples/diod-session.bin");

fn main() -> ExitCode {
    let words: Vec<String> = env::args().skip(1).collect();
    let [program, count, seed] = words.as_slice() else {
        eprintln!("session: usage: session REPLAY N SEED");
        return ExitCode::from(2);
    };
    let (Ok(count), Ok(seed)) = (count.parse(), seed.parse()) else {
        eprintln!("session: N and SEED are numbers");
        return ExitCode::from(2);
    };
    let mut wrong = paths_by_hand();
    wrong += compared("the recording", program, vec![sealed(RECORDING)]);
    wrong += trailers::compared(program, &mut Draws::new(seed));
    wrong += traces(program, count, seed);
    ExitCode::from(u8::from(wrong > 0))
}

/// A stretch that reads to its end, and its trailer.
fn sealed(stretch: &[u8]) -> Vec<u8> {
    with_trailer(stretch, numbers(stretch).expect("it reads to its end"))
}

fn paths_by_hand() -> usize {
    let (steps, difference) = by_hand::paths();
    if let Some(difference) = &difference {
        println!("paths by hand: {difference}");
    }
    let differ = usize::from(difference.is_some());
    println!("paths by hand: {steps} requests and their replies; {differ} differ");
    differ
}

/// A line for files of a kind; how many of them the two tell otherwise.
fn compared(what: &str, program: &str, files: Vec<Vec<u8>>) -> usize {
    let told = |(number, file): (usize, &Vec<u8>)| {
        one(
            &format!("{what}, number {number}"),
            program,
            file,
            &text(file, &mut ()),
        )
    };
    let differ = files.iter().enumerate().map(told).sum::<usize>();
    println!("{what}: {} files; {differ} differ", files.len());
    differ
}

/// 1 if the program says anything else of the file, with a line for it.
fn one(what: &str, program: &str, file: &[u8], text: &str) -> usize {
    let difference = match program::replay(program, file) {
        Ok(said) => program::difference(&said, text).or_else(|| ours_differs(file, text)),
        Err(error) => Some(error),
    };
    if let Some(difference) = &difference {
        println!("{what}, {} bytes: {difference}", file.len());
    }
    usize::from(difference.is_some())
}

/// Whether an answer or a path of the crate's session differs, with a line for it.
fn paths_differ(turn: usize, stretch: &[u8]) -> bool {
    let difference = beside::beside(stretch, &mut ours::Ours::new());
    if let Some(difference) = &difference {
        println!("drawn, number {turn}, the crate's paths: {difference}");
    }
    difference.is_some()
}

/// The crate's text of a file, which may be longer there.
fn ours_differs(file: &[u8], text: &str) -> Option<String> {
    let told = file.len() <= recording::LONGEST;
    let difference = told.then(|| program::difference(ours::text(file).as_bytes(), text));
    difference
        .flatten()
        .map(|difference| format!("the crate: {difference}"))
}

/// The drawn ones, with the tally. What a run has to meet and did not is wrong too.
fn traces(program: &str, count: usize, seed: u64) -> usize {
    let (draws, tally) = (&mut Draws::new(seed), &mut Tally::default());
    let (mut frames, mut differ) = (0, 0);
    for turn in 0..count {
        let stretch = draw::stretch(turn, draws);
        let file = sealed(&stretch);
        tally.start();
        let text = text(&file, tally);
        // Beside the header and the last line.
        frames += text.lines().count() - 2;
        differ += one(&format!("drawn, number {turn}"), program, &file, &text);
        differ += usize::from(!ours::seals(&file));
        if turn % PATHS_OF == 0 {
            differ += usize::from(paths_differ(turn, &stretch));
        }
    }
    println!("drawn: {count} files, {frames} frames; {differ} differ");
    tally.print();
    let missing = tally.missing();
    for what in &missing {
        println!("never met: {what}");
    }
    println!("{} never met", missing.len());
    differ + missing.len()
}
