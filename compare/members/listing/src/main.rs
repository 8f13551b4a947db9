//! The proved lister beside the command `sheafsledge list -`, on the same bytes; compare/listing says
//! what is asked.

mod drawn;
mod programs;

use std::env;
use std::process::ExitCode;

use p9::draw::Draws;

use programs::{Programs, Said};

const SESSION: &[u8] = include_bytes!("../../../../examples/diod-session.bin");

/// The session is cut once in so many bytes.
const STEP: usize = 97;

/// How often it is damaged.
const DAMAGED: usize = 40;

fn main() -> ExitCode {
    let words: Vec<String> = env::args().skip(1).collect();
    let [lister, command, count, seed] = words.as_slice() else {
        eprintln!("listing: usage: listing LISTER COMMAND N SEED");
        return ExitCode::from(2);
    };
    let (Ok(count), Ok(seed)) = (count.parse(), seed.parse()) else {
        eprintln!("listing: N and SEED are numbers");
        return ExitCode::from(2);
    };
    let programs = Programs { lister, command };
    let draws = &mut Draws::new(seed);
    let cuts = (0..SESSION.len()).step_by(STEP);
    let drawn = (0..count).map(|turn| drawn::stretch(turn, draws)).collect();
    let mut differ = 0;
    for (what, stretches) in [
        ("the session", vec![SESSION.to_vec()]),
        (
            "the session cut",
            cuts.map(|cut| SESSION[..cut].to_vec()).collect(),
        ),
        ("the session damaged", damaged(&mut Draws::new(seed))),
        ("drawn", drawn),
    ] {
        differ += told(what, &stretches, programs);
    }
    ExitCode::from(u8::from(differ > 0))
}

/// A few bits flipped, anywhere.
fn damaged(draws: &mut Draws) -> Vec<Vec<u8>> {
    let one = |_| {
        let mut bytes = SESSION.to_vec();
        for _ in 0..=draws.below(8) {
            let at = draws.below(bytes.len());
            bytes[at] ^= 1 << draws.below(8);
        }
        bytes
    };
    (0..DAMAGED).map(one).collect()
}

/// A line for stretches of a kind; how many are listed otherwise by one of the two.
fn told(what: &str, stretches: &[Vec<u8>], programs: Programs) -> usize {
    let (mut sum, mut differ) = (Said::default(), 0);
    for (number, bytes) in stretches.iter().enumerate() {
        match programs.list(bytes) {
            Ok(said) => sum += said,
            Err(difference) => {
                println!(
                    "{what}, number {number}, {} bytes: {difference}",
                    bytes.len()
                );
                differ += 1;
            }
        }
    }
    let Said {
        frames,
        tails,
        refused,
        stops,
    } = sum;
    println!(
        "{what}: {} stretches, {frames} frames, of which {tails} have a tail and {refused} are \
         refused, {stops} stops; {differ} differ",
        stretches.len()
    );
    differ
}
