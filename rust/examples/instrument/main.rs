//! Reads a session of 9P2000, as instruments speak it, and says each frame in words.
//!
//!     cargo run --example instrument -- ../examples/instrument-session.bin

mod words;

use std::path::Path;
use std::process::ExitCode;
use std::{env, fs};

fn main() -> ExitCode {
    let Some(file) = env::args_os().nth(1) else {
        return fails("usage: instrument FILE");
    };
    let name = Path::new(&file).display();
    match fs::read(&file) {
        Err(error) => fails(&format!("{name}: {error}")),
        Ok(bytes) => {
            let (text, wrong) = words::session(&bytes);
            print!("{text}");
            wrong.map_or(ExitCode::SUCCESS, |wrong| {
                fails(&format!("{name}: {wrong}"))
            })
        }
    }
}

fn fails(why: &str) -> ExitCode {
    eprintln!("instrument: {why}");
    ExitCode::FAILURE
}
