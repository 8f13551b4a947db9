//! How long one turn of something takes.

use std::time::{Duration, Instant};

/// Does something so many times over, with its output at one of the places.
pub type Way<'a> = &'a mut dyn FnMut(u64, Place);

/// Long beside what reading the clock takes.
const RUN: Duration = Duration::from_millis(5);

const RUNS_AT_A_PLACE: usize = 3;

/// A processor that has been idle takes its time to come to its full speed, and the first row would
/// pay for it.
pub fn warm_up() {
    let start = Instant::now();
    while start.elapsed() < 100 * RUN {
        std::hint::spin_loop();
    }
}

/// How far into its buffer an output starts. A copy is slower, by a fifth as seen, where it starts
/// at nearly the same byte of a page as what is copied; so each writer is tried at several, and
/// where the allocator put its buffer does not decide.
#[derive(Clone, Copy)]
pub struct Place(usize);

const PAGE: usize = 4096;

const PLACES: [Place; 4] = [
    Place(0),
    Place(PAGE / 4),
    Place(PAGE / 2),
    Place(PAGE / 4 * 3),
];

/// Room for a frame at each of the places. It is not cleared between turns.
pub struct Output {
    bytes: Vec<u8>,
    len: usize,
}

impl Output {
    pub fn new(len: usize) -> Self {
        let bytes = vec![0; len + PAGE];
        Self { bytes, len }
    }

    pub fn at(&mut self, place: Place) -> &mut [u8] {
        &mut self.bytes[place.0..][..self.len]
    }
}

/// The ns that one turn takes in the best run of each. They run one after the other each time, so
/// that a slow moment of the machine falls on all of them.
pub fn least<const N: usize>(mut ways: [Way; N]) -> [f64; N] {
    let counts = ways.each_mut().map(|way| enough(*way));
    let mut best = [f64::INFINITY; N];
    for place in PLACES.repeat(RUNS_AT_A_PLACE) {
        for ((way, count), best) in ways.iter_mut().zip(counts).zip(&mut best) {
            let took = time(*way, count, place).as_nanos() as f64;
            *best = best.min(took / count as f64);
        }
    }
    best
}

/// How many turns fill a run.
fn enough(way: Way) -> u64 {
    let mut turns = 1;
    while time(way, turns, PLACES[0]) < RUN {
        turns *= 2;
    }
    turns
}

fn time(way: Way, turns: u64, place: Place) -> Duration {
    let start = Instant::now();
    way(turns, place);
    start.elapsed()
}
