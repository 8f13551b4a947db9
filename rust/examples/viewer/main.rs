//! A small viewer: shows the frames of a recording that hold names, and marks each name by its range.
//!
//!     cargo run --example viewer -- ../examples/diod-session.bin

mod marks;

use std::error::Error;
use std::{env, fs};

fn main() -> Result<(), Box<dyn Error>> {
    let file = env::args_os().nth(1).ok_or("usage: viewer FILE")?;
    let bytes = fs::read(file)?;
    for frame in sheafsledge::stretch(&bytes) {
        print!("{}", marks::marked(&bytes, &frame?));
    }
    Ok(())
}
