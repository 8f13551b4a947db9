//! A server that was written against p9 keeps its text: it takes `protocol`, the folder beside this
//! file, in place of p9's own module of that name. Copy the folder into the server's crate.
//!
//!     cargo run --example swap < REQUESTS
//!
//! This shows it on a file of requests, which are read and written as with p9. What is left over
//! after a frame's last field is gone with the frame, and never read as another.

mod protocol;

use std::io::{self, BufRead, Write};
use std::process::ExitCode;

use protocol::{Tframe, WireFormat};

fn main() -> ExitCode {
    match shown(&mut io::stdin().lock(), &mut io::stdout().lock()) {
        Ok(()) => ExitCode::SUCCESS,
        Err(error) => {
            eprintln!("swap: {error}");
            ExitCode::FAILURE
        }
    }
}

fn shown(requests: &mut impl BufRead, out: &mut impl Write) -> io::Result<()> {
    while !requests.fill_buf()?.is_empty() {
        let frame: Tframe = WireFormat::decode(requests)?;
        let bytes = frame.msg.is_ok().then(|| frame.byte_size());
        writeln!(out, "{frame:?}, {bytes:?} bytes")?;
    }
    Ok(())
}
