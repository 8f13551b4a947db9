//! Numbers as text. A listing is mostly numbers, so its speed is theirs.

/// How long a line of a listing's numbers is at the most, and a little more, so that a number can be
/// put in one piece and be cut then.
pub const LINE: usize = 64;

/// The digits of each number below 1,000 and how many there are; or `padded`, with zeros in front.
const fn thousand(padded: bool) -> [[u8; 4]; 1000] {
    let mut all = [[0; 4]; 1000];
    let mut n = 0;
    while n < 1000 {
        let digits = [n / 100, n / 10 % 10, n % 10];
        let skipped = match padded {
            true => 0,
            false => (n < 100) as usize + (n < 10) as usize,
        };
        let mut i = skipped;
        while i < 3 {
            all[n][i - skipped] = b'0' + digits[i] as u8;
            i += 1;
        }
        all[n][3] = (3 - skipped) as u8;
        n += 1;
    }
    all
}

static FEW: [[u8; 4]; 1000] = thousand(false);
static LAST: [[u8; 4]; 1000] = thousand(true);

/// Any number's digits, and where they start.
fn digits(mut n: u64) -> ([u8; 20], usize) {
    let (mut digits, mut start) = ([0; 20], 20);
    loop {
        start -= 1;
        digits[start] = b'0' + (n % 10) as u8;
        n /= 10;
        if n == 0 {
            return (digits, start);
        }
    }
}

/// A number at a place of a line; the place after it.
#[inline(always)]
pub fn put(line: &mut [u8; LINE], place: usize, n: u32) -> usize {
    match FEW.get(n as usize) {
        Some(few) => {
            line[place..place + 4].copy_from_slice(few);
            place + few[3] as usize
        }
        None => put_any(line, place, n as u64),
    }
}

#[inline(never)]
fn put_any(line: &mut [u8; LINE], place: usize, n: u64) -> usize {
    let (digits, start) = digits(n);
    let end = place + digits.len() - start;
    line[place..end].copy_from_slice(&digits[start..]);
    end
}

/// A number at the end of some text.
#[inline]
pub fn push(text: &mut Vec<u8>, n: u64) {
    match FEW.get(n as usize) {
        // All four, and then without those that are none: a copy of a fixed length is cheap.
        Some(few) => {
            text.extend_from_slice(few);
            text.truncate(text.len() - 4 + few[3] as usize);
        }
        None => {
            let (digits, start) = digits(n);
            text.extend_from_slice(&digits[start..]);
        }
    }
}

/// Numbers that go up little by little, as positions do: all their digits but the last three are kept
/// from one to the next.
pub struct Rising {
    /// A multiple of 1,000, and its digits without the last three.
    base: u64,
    front: [u8; 20],
    len: usize,
}

impl Rising {
    pub const fn new() -> Self {
        Self {
            base: 0,
            front: [0; 20],
            len: 0,
        }
    }

    /// A number at the front of a line, and how long it is. Any number may come.
    #[inline(always)]
    pub fn put(&mut self, line: &mut [u8; LINE], n: u64) -> usize {
        if n.wrapping_sub(self.base) >= 1000 {
            self.go_to(n);
        }
        let Some(last) = LAST.get(n.wrapping_sub(self.base) as usize) else {
            return 0;
        };
        if self.len == 0 {
            return put(line, 0, n as u32);
        }
        line[..20].copy_from_slice(&self.front);
        line[self.len..self.len + 4].copy_from_slice(last);
        self.len + 3
    }

    #[inline(never)]
    fn go_to(&mut self, n: u64) {
        self.base = n - n % 1000;
        let (digits, start) = digits(n / 1000);
        self.len = match self.base {
            0 => 0,
            _ => digits.len() - start,
        };
        self.front[..self.len].copy_from_slice(&digits[start..start + self.len]);
    }
}

#[cfg(test)]
mod tests {
    use super::*;

    /// Around each power of ten, and others.
    fn numbers() -> impl Iterator<Item = u64> {
        let borders = (0..20).map(|power| 10_u64.pow(power));
        let near = borders.flat_map(|n| [n - 1, n, n + 1, n / 9 * 7]);
        near.chain(0..1200).chain([u64::MAX, u64::MAX - 1])
    }

    #[test]
    fn numbers_are_as_the_standard_library_has_them() {
        let mut rising = Rising::new();
        for n in numbers() {
            let told = n.to_string().into_bytes();
            let mut text = vec![b'x'];
            push(&mut text, n);
            assert_eq!(text[1..], told);

            let mut line = [b'y'; LINE];
            let end = rising.put(&mut line, n);
            assert_eq!(line[..end], told);

            let end = put(&mut line, 37, n as u32);
            assert_eq!(line[37..end], (n as u32).to_string().into_bytes());
        }
    }

    #[test]
    fn rising_numbers_are_too() {
        let mut rising = Rising::new();
        for step in [1, 7, 43, 999, 1_000, 1_001, 123_456_789_012] {
            for n in (0..3000).map(|i| i * step) {
                let mut line = [b'y'; LINE];
                let end = rising.put(&mut line, n);
                assert_eq!(line[..end], n.to_string().into_bytes());
            }
        }
    }
}
