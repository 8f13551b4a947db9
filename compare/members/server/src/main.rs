//! `compare/server` builds and runs this; see its head for what it shows.

mod counts;
mod drawn;
mod folder;
mod listen;
mod script;
mod streams;
mod twins;

use std::env;
use std::io;
use std::process::ExitCode;

use folder::Folder;
use twins::{Counts, Twins};

fn main() -> ExitCode {
    let words: Vec<String> = env::args().skip(1).collect();
    let words: Vec<&str> = words.iter().map(String::as_str).collect();
    let ended = match *words {
        ["listen", folder] => listen::listen(folder).map(|()| true),
        [count, seed] => compared(count, seed),
        _ => Err(io::Error::other(
            "usage: server N SEED, or server listen FOLDER",
        )),
    };
    match ended {
        Ok(true) => ExitCode::SUCCESS,
        Ok(false) => ExitCode::FAILURE,
        Err(error) => {
            eprintln!("server: {error}");
            ExitCode::FAILURE
        }
    }
}

/// The script, so many drawn requests, a directory by all counts, and the streams that the two take
/// differently.
fn compared(count: &str, seed: &str) -> io::Result<bool> {
    let number = |word: &str| word.parse().map_err(io::Error::other);
    let (count, seed) = (number(count)?, number(seed)?);
    libc::hold_steady();
    let folder = Folder::new()?;
    let mut twins = Twins::new(&folder, "script")?;
    let mut good = script::all(&mut twins);
    good &= twins.ended("script")?;
    let scripted = twins.counts().clone();

    let mut twins = Twins::new(&folder, "drawn")?;
    good &= drawn::all(&mut twins, count, seed);
    good &= twins.ended("drawn")?;
    good &= answered(&scripted, twins.counts());

    let mut twins = Twins::new(&folder, "counts")?;
    good &= counts::all(&mut twins);
    good &= twins.ended("counts")?;

    Ok(good & streams::all(&folder)?)
}

/// How often each of the script's types was answered with more than an error. One that the server
/// knows how to do and that was never done would have shown nothing.
fn answered(scripted: &Counts, drawn: &Counts) -> bool {
    let in_one = |counts: &Counts, ty: &u8| counts.get(ty).map_or(0, |(_, done)| *done);
    let done = |ty: &u8| in_one(scripted, ty) + in_one(drawn, ty);
    let types = || scripted.keys();
    let words: Vec<String> = types().map(|ty| format!("{ty} {}", done(ty))).collect();
    println!("done, by type: {}", words.join(", "));
    let undone = |ty: &&u8| done(ty) == 0 && !script::NEVER_DONE.contains(ty);
    let undone: Vec<&u8> = types().filter(undone).collect();
    if !undone.is_empty() {
        eprintln!("server: nothing of these types was done: {undone:?}");
    }
    undone.is_empty()
}
