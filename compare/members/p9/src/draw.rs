//! Records of drawn values, the same from the same seed.

use crate::protocol::{Data, P9String, Rmessage, Tmessage};

/// Characters of one to four bytes, the first and the last of each row of RFC 3629 among them.
const LETTERS: [[char; 5]; 4] = [
    ['a', '\u{1}', '/', ' ', '\u{7f}'],
    ['\u{80}', 'é', 'ß', 'ж', '\u{7ff}'],
    ['\u{800}', '€', '\u{d7ff}', '\u{e000}', '\u{ffff}'],
    ['\u{10000}', '😀', '\u{3ffff}', '\u{40000}', '\u{10ffff}'],
];

/// A walk has at most so many elements.
pub const MOST_ELEMENTS: usize = 16;

/// Xorshift, as Vigna's xorshift64*.
pub struct Draws(u64);

impl Draws {
    /// Neighbouring seeds are taken far apart, by a step of splitmix64. Xorshift never leaves 0.
    pub fn new(seed: u64) -> Self {
        let a = seed.wrapping_add(0x9e37_79b9_7f4a_7c15);
        let b = (a ^ (a >> 30)).wrapping_mul(0xbf58_476d_1ce4_e5b9);
        let c = (b ^ (b >> 27)).wrapping_mul(0x94d0_49bb_1331_11eb);
        Self((c ^ (c >> 31)).max(1))
    }

    pub fn number(&mut self) -> u64 {
        self.0 ^= self.0 >> 12;
        self.0 ^= self.0 << 25;
        self.0 ^= self.0 >> 27;
        self.0.wrapping_mul(0x2545_f491_4f6c_dd1d)
    }

    pub fn below(&mut self, bound: usize) -> usize {
        (self.number() >> 16) as usize % bound
    }

    pub fn byte(&mut self) -> u8 {
        self.below(256) as u8
    }

    pub fn one_of<T: Copy>(&mut self, all: &[T]) -> T {
        all[self.below(all.len())]
    }

    pub fn bytes(&mut self, count: usize) -> Vec<u8> {
        (0..count).map(|_| self.byte()).collect()
    }

    /// None, one and few more often than many.
    fn count(&mut self) -> usize {
        let bound = self.one_of(&[1, 2, 4, 4, 16, 16, 16, 80]);
        self.below(bound)
    }
}

pub trait Draw {
    fn draw(draws: &mut Draws) -> Self;
}

/// A drawer for each case of a message, so that no case is left to luck.
pub trait Cases: Sized + 'static {
    const CASES: &'static [fn(&mut Draws) -> Self];
}

macro_rules! draw_numbers {
    ($($number:ty)*) => {
        $(impl Draw for $number {
            fn draw(draws: &mut Draws) -> Self {
                match draws.below(8) {
                    0 => 0,
                    1 => Self::MAX,
                    2 => Self::MAX / 2 + 1,
                    3 => draws.byte() as Self,
                    _ => draws.number() as Self,
                }
            }
        })*
    };
}

draw_numbers!(u8 u16 u32 u64);

impl Draw for P9String {
    fn draw(draws: &mut Draws) -> Self {
        let rows = draws.one_of(&[1, LETTERS.len()]);
        let text: String = (0..draws.count())
            .map(|_| {
                let row = draws.one_of(&LETTERS[..rows]);
                draws.one_of(&row)
            })
            .collect();
        P9String::new(text).expect("no zero byte is among the letters")
    }
}

impl Draw for Data {
    fn draw(draws: &mut Draws) -> Self {
        let count = draws.count();
        Data(draws.bytes(count))
    }
}

/// The elements of a walk. The paper refuses more, which the seller's crate does not
/// (docs/DIFFERENCES.md), so that they are drawn by `limits` alone.
impl<T: Draw> Draw for Vec<T> {
    fn draw(draws: &mut Draws) -> Self {
        let mut all: Vec<T> = (0..draws.count()).map(|_| T::draw(draws)).collect();
        all.truncate(MOST_ELEMENTS);
        all
    }
}

macro_rules! draw_message {
    ($message:ident, full: $($full:ident)*, empty: $($empty:ident $name:literal)*) => {
        impl Cases for $message {
            const CASES: &'static [fn(&mut Draws) -> Self] = &[
                $(|draws| $message::$full(Draw::draw(draws)),)*
                $(|_| $message::$empty,)*
            ];
        }
    };
}

for_tmessage!(draw_message);
for_rmessage!(draw_message);
