//! The crate that a server in Rust uses: records in, records out.

use std::hint::black_box;

use sheafsledge::{plain, stretch, Decoded, Refusal, Rframe, Tframe};

pub trait Frame<'a>: Copy {
    fn read(bytes: &'a [u8]) -> Result<Decoded<Self>, Refusal>;
    fn write(&self, out: &mut [u8]) -> Result<usize, Refusal>;
}

macro_rules! frame {
    ($($frame:ident)::+) => {
        impl<'a> Frame<'a> for $($frame)::+<'a> {
            #[inline]
            fn read(bytes: &'a [u8]) -> Result<Decoded<Self>, Refusal> {
                $($frame)::+::decode(bytes)
            }

            #[inline]
            fn write(&self, out: &mut [u8]) -> Result<usize, Refusal> {
                self.encode(out)
            }
        }
    };
}

frame!(Tframe);
frame!(Rframe);
frame!(plain::Tframe);
frame!(plain::Rframe);

/// The frame as the crate has it, if it writes it again as it was.
pub fn same<'a, F: Frame<'a>>(frame: &'a [u8]) -> Option<F> {
    let mut out = vec![0; frame.len()];
    let read = F::read(frame).ok()?.frame;
    let len = read.write(&mut out).ok()?;
    (out[..len] == *frame).then_some(read)
}

/// How many frames of a stretch are accepted.
pub fn listed(bytes: &[u8]) -> usize {
    let mut accepted = 0;
    for frame in stretch(bytes) {
        accepted += usize::from(black_box(&frame).is_ok());
    }
    accepted
}
