//! A small 9P2000.L server to start from: it shows a directory, for reading alone.
//!
//!     cargo run --example server -- DIR 127.0.0.1:PORT
//!
//! Every frame is cut, read and written by this crate (`serve`). What a request asks for is done in
//! `session`, and what is asked of the file system stands in `files`, which never leaves the
//! directory. It needs Linux, for /proc.

mod files;
mod serve;
mod session;

use std::env;
use std::io;
use std::net::TcpListener;
use std::process::ExitCode;
use std::thread;

fn main() -> ExitCode {
    let words: Vec<String> = env::args().skip(1).collect();
    let [directory, address] = words.as_slice() else {
        eprintln!("server: usage: server DIR ADDRESS:PORT");
        return ExitCode::from(2);
    };
    match listen(directory, address) {
        Ok(()) => ExitCode::SUCCESS,
        Err(error) => {
            eprintln!("server: {error}");
            ExitCode::FAILURE
        }
    }
}

fn listen(directory: &str, address: &str) -> io::Result<()> {
    // Whether the directory is there is told now, and not to the first client.
    files::Place::root(directory.as_ref())?;
    let listener = TcpListener::bind(address)?;
    println!("{directory} at {}", listener.local_addr()?);
    for stream in listener.incoming() {
        let directory = directory.to_owned();
        thread::spawn(move || {
            let served = stream.and_then(|to| serve::serve(&to, &to, directory.as_ref()));
            if let Err(error) = served {
                eprintln!("server: a client was dropped: {error}");
            }
        });
    }
    Ok(())
}
