//! `bench/run` builds and runs this; see its head for what is measured.

mod blocks;
mod captures;
mod clock;
mod dialects;
mod frames;
mod in_rust;
mod served;
mod sessions;
mod stretch;
mod texts;

use std::hint::black_box;
use std::process::ExitCode;

use ours::{CrossedR, CrossedT, Crossing};
use p9::protocol::{Rframe, Tframe, WireFormat};
use sheafsledge::{Rframe as Reply, Tframe as Request};

use clock::{least, Output, Place};

/// From so many bytes on, copying them is most of a writer's work.
const LONG: usize = 8192;

fn main() -> ExitCode {
    clock::warm_up();
    println!("name what ours theirs ratio");
    let (requests, replies) = (frames::requests(), frames::replies());
    let mut requests = requests.iter();
    let mut replies = replies.iter();
    let done = requests.all(|(name, frame)| rows::<CrossedT, Request, Tframe>(name, frame))
        && replies.all(|(name, frame)| rows::<CrossedR, Reply, Rframe>(name, frame))
        && dialects::rows()
        && stretch::row_of_a_million()
        && sessions::row_of_a_session()
        && blocks::rows()
        && captures::rows_of_a_million()
        && texts::rows()
        && served::rows();
    match done {
        true => ExitCode::SUCCESS,
        false => ExitCode::FAILURE,
    }
}

/// The rows of a frame. There are none, and the answer is `false`, unless both libraries read
/// it and write it again.
fn rows<'a, Ours: Crossing, InRust: in_rust::Frame<'a>, Theirs: WireFormat>(
    name: &str,
    frame: &'a [u8],
) -> bool {
    let mut flat = Ours::default();
    flat.read(frame);
    let mut out = vec![0; frame.len()];
    let wrote = flat.write(&mut out, frame);
    let whole = (wrote.refusal, wrote.place) == (0, frame.len());
    let same = in_rust::same::<InRust>(frame).filter(|_| whole && out == frame);
    let Some(in_rust) = same else {
        eprintln!("bench: the proved library does not read {name} and write it again");
        return false;
    };
    let record = Theirs::decode(&mut &*frame);
    let again = record.as_ref().ok().map(judge::written);
    match (record, again) {
        (Ok(record), Some(Ok(again))) if again == frame => {
            read::<Ours, InRust, Theirs>(name, frame);
            write(name, frame, (&flat, &in_rust, &record));
            true
        }
        _ => {
            eprintln!("bench: the seller's crate does not read {name} and write it again");
            false
        }
    }
}

fn read<'a, Ours: Crossing, InRust: in_rust::Frame<'a>, Theirs: WireFormat>(
    name: &str,
    frame: &'a [u8],
) {
    let mut flat = Ours::default();
    let mut ours = |turns, _: Place| {
        for _ in 0..turns {
            black_box(&mut flat).read(black_box(frame));
        }
    };
    let mut in_rust = |turns, _: Place| {
        for _ in 0..turns {
            black_box(&InRust::read(black_box(frame)));
        }
    };
    let mut theirs = |turns, _: Place| {
        for _ in 0..turns {
            // And dropped, which whoever reads one has to do.
            black_box(&Theirs::decode(&mut black_box(frame)));
        }
    };
    let [ours, in_rust, theirs] = least([&mut ours, &mut in_rust, &mut theirs]);
    rows_of(name, "read", [ours, in_rust], theirs);
}

fn write<'a>(
    name: &str,
    frame: &[u8],
    (flat, in_rust, record): (&impl Crossing, &impl in_rust::Frame<'a>, &impl WireFormat),
) {
    let mut output = Output::new(frame.len());
    let mut ours = |turns, place| {
        let out = output.at(place);
        for _ in 0..turns {
            let (to, lent) = (black_box(&mut *out), black_box(frame));
            black_box(&black_box(flat).write(to, lent));
        }
    };
    let mut output = Output::new(frame.len());
    let mut encoded = |turns, place| {
        let out = output.at(place);
        for _ in 0..turns {
            black_box(&black_box(in_rust).write(black_box(&mut *out)));
        }
    };
    let mut output = Output::new(frame.len());
    let mut into_slice = |turns, place| {
        let out = output.at(place);
        for _ in 0..turns {
            let mut to = black_box(&mut *out);
            black_box(&black_box(record).encode(&mut to));
        }
    };
    let mut grown = Vec::with_capacity(frame.len());
    let mut into_vec = |turns, _: Place| {
        for _ in 0..turns {
            grown.clear();
            black_box(&black_box(record).encode(black_box(&mut grown)));
        }
    };
    let mut output = Output::new(frame.len());
    let mut copy = |turns, place| {
        let out = output.at(place);
        for _ in 0..turns {
            black_box(&mut *out).copy_from_slice(black_box(frame));
        }
    };
    let [ours, encoded, slice, vec, copy] = least([
        &mut ours,
        &mut encoded,
        &mut into_slice,
        &mut into_vec,
        &mut copy,
    ]);
    rows_of(name, "write", [ours, encoded], slice.min(vec));
    if frame.len() > LONG {
        println!("{name} copy {copy:.1} - -");
    }
}

/// Over the C boundary, and through the crate in Rust.
fn rows_of(name: &str, what: &str, [ours, in_rust]: [f64; 2], theirs: f64) {
    row(name, what, ours, theirs);
    row(&format!("{name}-in-Rust"), what, in_rust, theirs);
}

fn row(name: &str, what: &str, ours: f64, theirs: f64) {
    println!("{name} {what} {ours:.1} {theirs:.1} {:.2}", theirs / ours);
}
