//! UTF-8 alone: is it, or not? Beside the standard library.

use std::hint::black_box;

use p9::draw::Draws;

use crate::clock::{least, Place};
use crate::row;

const LEN: usize = 65_536;

const PLAIN: [&str; 4] = ["survey ", "track001 ", "log.txt ", "0123456789 "];

/// Two bytes a letter.
const CYRILLIC: [&str; 4] = ["дрон ", "журнал ", "съёмка ", "маршрут "];

/// Three bytes a letter, and nothing between the words.
const CJK: [&str; 4] = ["日誌", "測量", "無人機", "軌跡"];

/// Words of one, two, three and four bytes a letter between plain ones, in an order that no
/// processor foresees.
const MIXED: [&str; 8] = [
    "survey ",
    "дрон ",
    "track001 ",
    "журнал ",
    "日誌 ",
    "0123456789 ",
    "été ",
    "🛰 ",
];

const NAMES: [&str; 8] = [
    "a",
    "log",
    "bin",
    "track001",
    "README.md",
    "survey.txt",
    "2026-11-16.csv",
    "0123456789abcdef01234567",
];

const HOW_MANY_NAMES: usize = 1024;

/// The rows of all texts. There are none from the first on that a library mistakes, and the answer
/// is `false` then.
pub fn rows() -> bool {
    let texts = [
        ("UTF-8-ASCII", &PLAIN[..]),
        ("UTF-8-Cyrillic", &CYRILLIC),
        ("UTF-8-CJK", &CJK),
        ("UTF-8-mixed", &MIXED),
    ];
    let full = |bytes: &[u8]| !bytes.contains(&0);
    let (our_name, their_name) = (
        |bytes: &[u8]| ours::is_utf8(bytes) && full(bytes),
        |bytes: &[u8]| theirs(bytes) && full(bytes),
    );
    texts
        .iter()
        .all(|(row, words)| checked(row, &[text(words)], &[0xff], ours::is_utf8, theirs))
        && checked("UTF-8-names", &names(), &[0xff, 0], our_name, their_name)
}

/// The row of some texts, looked at one by one. There is none, and the answer is `false`, unless
/// both libraries take each text, and neither does once one of the wrong bytes is its last.
fn checked(
    row_of: &str,
    texts: &[Vec<u8>],
    wrong: &[u8],
    ours: impl Fn(&[u8]) -> bool,
    theirs: impl Fn(&[u8]) -> bool,
) -> bool {
    let agree = |bytes: &[u8], told| ours(bytes) == told && theirs(bytes) == told;
    let told_apart = |text: &Vec<u8>| {
        let mut broken = text.clone();
        agree(text, true)
            && wrong.iter().all(|byte| {
                *broken.last_mut().expect("no text is empty") = *byte;
                agree(&broken, false)
            })
    };
    if !texts.iter().all(told_apart) {
        eprintln!("bench: {row_of} is not told from what it must not be");
        return false;
    }
    let mut ours = |turns, _: Place| all_of(texts, turns, &ours);
    let mut theirs = |turns, _: Place| all_of(texts, turns, &theirs);
    let [ours, theirs] = least([&mut ours, &mut theirs]);
    row(row_of, "check", ours, theirs);
    true
}

fn all_of(texts: &[Vec<u8>], turns: u64, check: impl Fn(&[u8]) -> bool) {
    for _ in 0..turns {
        for text in texts {
            black_box(check(black_box(text)));
        }
    }
}

fn theirs(bytes: &[u8]) -> bool {
    std::str::from_utf8(bytes).is_ok()
}

/// Drawn words as far as they go in, and plain letters after them.
fn text(words: &[&str]) -> Vec<u8> {
    let draws = &mut Draws::new(1);
    let mut text = Vec::new();
    loop {
        let word = draws.one_of(words).as_bytes();
        if text.len() + word.len() > LEN {
            text.resize(LEN, b'.');
            return text;
        }
        text.extend_from_slice(word);
    }
}

fn names() -> Vec<Vec<u8>> {
    let draws = &mut Draws::new(1);
    (0..HOW_MANY_NAMES)
        .map(|_| draws.one_of(&NAMES).as_bytes().to_vec())
        .collect()
}
