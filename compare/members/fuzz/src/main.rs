//! `compare/fuzz` builds and runs this; see its head for the usage.
#![no_main]

use p9::draw::Draws;
use run::compare::{asked, Outcome};
use run::kinds::chosen;

/// What libFuzzer calls with each input; the main function is its own.
#[no_mangle]
pub extern "C" fn LLVMFuzzerTestOneInput(data: *const u8, size: usize) -> i32 {
    if size > 0 {
        // SAFETY: libFuzzer lends so many bytes until this returns.
        compared(unsafe { std::slice::from_raw_parts(data, size) });
    }
    0
}

/// The first byte chooses what is asked of the others. What else is chosen hangs on all of them, so
/// that an input is always answered alike.
fn compared(input: &[u8]) {
    let (of, bytes) = (chosen(input[0]), &input[1..]);
    let seed = input.iter().fold(0, |seed: u64, byte| {
        seed.wrapping_mul(0x100_0000_01b3) ^ u64::from(*byte)
    });
    if let Outcome::Differs { ours, theirs } = asked(of, bytes, &mut Draws::new(seed)) {
        panic!("{of:?} differs\n  ours: {ours}\n  theirs: {theirs}");
    }
}
