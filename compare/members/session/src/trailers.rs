//! Files that are no recordings, and those on the border: what is said of each is written here, and
//! the second session has to say it too.

use p9::draw::Draws;

use crate::draw::stretch;
use crate::frames::drawn;
use crate::recording::{numbers, text, with_trailer, LONGEST, TRAILER};
use crate::{one, sealed, RECORDING};

const WRONG: &str = "stop 0 19\n";
const LONG: &str = "input too long\n";
const EMPTY: &str = "at size type tag answer tail\nend 0 0\n";

/// How often bits are flipped anywhere in the recording's file.
const FLIPPED: usize = 60;

/// A file, and what has to be said of it: always the same, or what the second session says.
type Case = (Vec<u8>, Option<&'static str>);

pub fn compared(program: &str, draws: &mut Draws) -> usize {
    let long = stretch(0, draws);
    let kinds = [
        ("wrong numbers", wrong_numbers(draws)),
        ("cut files", cut()),
        ("stretches that stop", stops(draws)),
        ("lengths", lengths(&long, draws)),
        ("flipped bits", flipped(draws)),
    ];
    kinds
        .iter()
        .map(|(what, cases)| told(what, cases, program))
        .sum()
}

fn told(what: &str, cases: &[Case], program: &str) -> usize {
    let mut differ = 0;
    for (number, (file, said)) in cases.iter().enumerate() {
        let (name, text) = (format!("{what}, number {number}"), text(file, &mut ()));
        let other = said.is_some_and(|said| said != text);
        if other {
            println!("{name}: the second session says {text:?}");
        }
        differ += usize::from(other).max(one(&name, program, file, &text));
    }
    println!("{what}: {} files; {differ} differ", cases.len());
    differ
}

/// Each number off by one, by much, or with its bytes the other way round.
fn wrong_numbers(draws: &mut Draws) -> Vec<Case> {
    let single = drawn(120, 1, draws);
    let mut cases = Vec::new();
    for stretch in [RECORDING, &single, &[]] {
        let right = numbers(stretch).expect("it reads to its end");
        for place in 0..3 {
            let number = right[place];
            let others = [
                number.wrapping_add(1),
                number.wrapping_sub(1),
                number.wrapping_add(12),
                number ^ 1 << 31,
                number.swap_bytes(),
            ];
            for other in others.into_iter().filter(|other| *other != number) {
                let mut numbers = right;
                numbers[place] = other;
                cases.push((with_trailer(stretch, numbers), Some(WRONG)));
            }
        }
    }
    cases
}

/// Without some of the last bytes, or of the first; and the stretch alone.
fn cut() -> Vec<Case> {
    let file = sealed(RECORDING);
    let ends = (1..=TRAILER).map(|less| file[..file.len() - less].to_vec());
    let starts = [1, 7, 12].map(|from| file[from..].to_vec());
    let zeros = (0..TRAILER).map(|count| vec![0; count]);
    let wrong = ends.chain(starts).chain(zeros);
    let mut cases: Vec<Case> = wrong.map(|file| (file, Some(WRONG))).collect();
    cases.push((vec![0; TRAILER], Some(EMPTY)));
    cases.push((vec![0; TRAILER + 1], Some(WRONG)));
    cases
}

/// A last frame that is cut or has no size of a frame, under all numbers that could be meant.
fn stops(draws: &mut Draws) -> Vec<Case> {
    let clunk = drawn(120, 1, draws);
    let mut cases = Vec::new();
    for size in [0, 6, 7, 12, 23, u8::MAX] {
        let mut last = clunk.clone();
        last[0] = size;
        let stretch = [&clunk[..], &last].concat();
        for frames in 1..=3 {
            for position in [0, 11, 18] {
                let file = with_trailer(&stretch, [22, frames, position]);
                cases.push((file, Some(WRONG)));
            }
        }
    }
    cases
}

/// Around the longest: a file of that length is followed, and one of a byte more is not, whatever its
/// trailer.
fn lengths(long: &[u8], draws: &mut Draws) -> Vec<Case> {
    let mut more = long.to_vec();
    more.extend(drawn(121, 1, draws));
    let mut one_more = sealed(long);
    one_more.insert(0, 0);
    vec![
        (sealed(long), None),
        (vec![0; LONGEST], Some(WRONG)),
        (vec![0; LONGEST + 1], Some(LONG)),
        (one_more, Some(LONG)),
        (sealed(&more), Some(LONG)),
        (sealed(&[long, long].concat()), Some(LONG)),
    ]
}

fn flipped(draws: &mut Draws) -> Vec<Case> {
    let one = |_| {
        let mut file = sealed(RECORDING);
        for _ in 0..=draws.below(4) {
            let at = draws.below(file.len());
            file[at] ^= 1 << draws.below(8);
        }
        (file, None)
    };
    (0..FLIPPED).map(one).collect()
}
