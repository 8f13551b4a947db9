//! `compare/run` builds and runs this; see its head for the usage.

use std::collections::BTreeSet;
use std::env;
use std::process::ExitCode;

use p9::draw::Draws;
use run::compare::{self, start, Outcome};
use run::kinds::{asked, Asked, Kind, Of, KINDS};
use run::rows::ROWS;

/// The smallest input of a kind that differs, with both answers.
struct Difference {
    of: Of,
    input: Vec<u8>,
    ours: String,
    theirs: String,
}

#[derive(Default)]
struct Tally {
    compared: u64,
    accepted: u64,
    known: u64,
    differ: u64,
    smallest: Option<Difference>,
    /// What was asked of a frame that differs, and the frame's type.
    types: BTreeSet<(String, u8)>,
}

impl Tally {
    fn counts(&self) -> String {
        let Self {
            compared,
            accepted,
            known,
            differ,
            ..
        } = self;
        format!("{compared} compared, {accepted} accepted, {known} known, {differ} differ")
    }

    fn count(&mut self, of: Of, input: Vec<u8>, outcome: Outcome) {
        self.compared += 1;
        match outcome {
            Outcome::Accepted => self.accepted += 1,
            Outcome::Refused => {}
            Outcome::Known => self.known += 1,
            Outcome::Differs { ours, theirs } => {
                self.differ += 1;
                if let (Some(_), Some(ty)) = (of.direction(), input.get(4)) {
                    self.types.insert((format!("{of:?}"), *ty));
                }
                let size = |input: &[u8]| (input.len(), input.to_vec());
                let found = self.smallest.as_ref();
                if found.is_none_or(|found| size(&input) < size(&found.input)) {
                    self.smallest = Some(Difference {
                        of,
                        input,
                        ours,
                        theirs,
                    });
                }
            }
        }
    }
}

/// So many cases of a kind. They don't depend on what the other kinds drew.
fn run(kind: Kind, share: u64, seed: u64) -> Tally {
    let draws = &mut Draws::new(seed ^ kind as u64);
    let mut tally = Tally::default();
    for turn in 0.. {
        for Asked { of, bytes } in asked(kind, turn, draws) {
            if tally.compared == share {
                return tally;
            }
            let outcome = compare::asked(of, &bytes, draws);
            tally.count(of, bytes, outcome);
        }
    }
    tally
}

/// How many of the cases each kind has. The rows of docs/DIFFERENCES.md come once each; what the
/// division leaves goes to the first kind.
fn shares(cases: u64) -> Vec<u64> {
    let rows = cases.min(ROWS.len() as u64);
    let share = |weight: u64| (u128::from(cases - rows) * u128::from(weight) / 10_000) as u64;
    let mut shares: Vec<u64> = KINDS.iter().map(|(_, _, weight)| share(*weight)).collect();
    let left = cases - rows - shares.iter().sum::<u64>();
    if let [first, .., last] = shares.as_mut_slice() {
        *first += left;
        *last = rows;
    }
    shares
}

fn tell(name: &str, found: &Difference, types: &BTreeSet<(String, u8)>) {
    let Difference {
        of,
        input,
        ours,
        theirs,
    } = found;
    println!("{name} differs at {of:?} {}", start(input));
    println!("  ours: {ours}");
    println!("  theirs: {theirs}");
    for (of, ty) in types {
        println!("  {of} of type {ty} differs");
    }
}

fn main() -> ExitCode {
    let words: Vec<String> = env::args().skip(1).collect();
    let numbers: Option<Vec<u64>> = words.iter().map(|word| word.parse().ok()).collect();
    let (cases, seed) = match numbers.as_deref() {
        Some([cases]) => (*cases, 1),
        Some([cases, seed]) => (*cases, *seed),
        _ => {
            eprintln!("run: usage: compare/run N [SEED]");
            return ExitCode::from(2);
        }
    };
    let (mut known, mut differ) = (0, 0);
    for ((kind, name, _), share) in KINDS.into_iter().zip(shares(cases)) {
        let tally = run(kind, share, seed);
        println!("{name} {}", tally.counts());
        if let Some(found) = &tally.smallest {
            tell(name, found, &tally.types);
        }
        known += tally.known;
        differ += tally.differ;
    }
    println!("{known} known, see docs/DIFFERENCES.md");
    println!("{cases} compared, {differ} differ");
    match differ {
        0 => ExitCode::SUCCESS,
        _ => ExitCode::FAILURE,
    }
}
