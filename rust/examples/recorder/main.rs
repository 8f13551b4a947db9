//! Reads a recording in the dialect that its two sides have agreed to speak, and says each frame and its
//! fields. Or asks a server for 9P2000.u, and reads by what it answers.
//!
//!     cargo run --example recorder -- ../examples/recorder-session.bin
//!     cargo run --example recorder -- --ask HOST:PORT

mod ask;
mod words;

use std::ffi::OsString;
use std::net::TcpStream;
use std::path::Path;
use std::process::ExitCode;
use std::{env, fs, io};

fn main() -> ExitCode {
    let words: Vec<OsString> = env::args_os().skip(1).collect();
    let (name, frames) = match words.as_slice() {
        [flag, server] if flag == "--ask" => (server, asked(&server.to_string_lossy())),
        [file] => (file, fs::read(file)),
        _ => return fails("usage: recorder FILE, or recorder --ask HOST:PORT"),
    };
    let name = Path::new(name).display();
    match frames {
        Err(error) => fails(&format!("{name}: {error}")),
        Ok(bytes) => {
            let (text, wrong) = words::session(&bytes);
            print!("{text}");
            wrong.map_or(ExitCode::SUCCESS, |wrong| {
                fails(&format!("{name}: {wrong}"))
            })
        }
    }
}

fn asked(server: &str) -> io::Result<Vec<u8>> {
    let server = TcpStream::connect(server)?;
    ask::exchange(&server, &server)
}

fn fails(why: &str) -> ExitCode {
    eprintln!("recorder: {why}");
    ExitCode::FAILURE
}
