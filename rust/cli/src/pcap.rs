//! `sheafsledge pcap`: a capture file made a recording, and a recording made a capture file.

use std::ffi::OsStr;
use std::io::{self, ErrorKind};

use sheafsledge::pcap::{export, import, HEADER, RECORD};

use crate::command::Command;
use crate::help;
use crate::input::{all_of, is_standard, named};
use crate::list::OUTPUT;
use crate::output::{finish_all, Output};
use crate::status::{refused, Failure, Status};
use crate::words::{Opt, Words};

const TIMES: Opt = Opt {
    long: "times",
    short: None,
    value: Some("FILE"),
    says: "the time of each frame, 8 bytes: seconds, microseconds",
};

pub const COMMAND: Command = Command {
    name: "pcap",
    says: "makes a recording of a capture file, or one of a recording",
    usage: "{import | export} [OPTION].. FILE",
    about: "\
'pcap import FILE.pcap -o STRETCH --times TIMES' writes the frames of a capture
file back to back, and the time of each to TIMES: 8 bytes a frame, seconds and
microseconds, little endian. The file is pcap with microseconds, version 2.4,
link type 147, in either order of bytes, with a frame a record.

'pcap export STRETCH -o FILE.pcap [--times TIMES]' writes such a file, little
endian. Without TIMES every frame has the time 0; rows after the last frame's
are passed over.

Refused, no file is made or altered, and one line on standard error says why,
and at which byte of FILE: 25 for what is no such file, or a frame longer than
65,535 bytes; 12 or 13 where the recording breaks off; 24 if TIMES has fewer
rows than there are frames.
",
    options: &[OUTPUT, TIMES, help::HELP],
    examples: &[
        "pcap export examples/diod-session.bin -o session.pcap",
        "pcap import session.pcap -o session.bin --times session.times",
    ],
    status: "0 if it is written; 1 if it is refused",
    run,
};

fn run(words: &Words) -> Result<Status, Failure> {
    let [way, file] = words.files() else {
        return Err(words.wrong("name 'import' or 'export', and a file".into()));
    };
    let Some(output) = words.value(OUTPUT.long) else {
        return Err(words.wrong("option '-o' is missing".into()));
    };
    let times = words.value(TIMES.long);
    match (way.to_str(), times) {
        (Some("import"), Some(times)) => imported(words, file, output, times),
        (Some("import"), None) => Err(words.wrong("option '--times' is missing".into())),
        (Some("export"), times) => exported(words, file, output, times),
        _ => Err(words.wrong("name 'import' or 'export' first".into())),
    }
}

fn imported(words: &Words, file: &OsStr, out: &OsStr, times: &OsStr) -> Result<Status, Failure> {
    // Of one name, one would replace the other.
    if out == times {
        return Err(words.wrong("'-o' and '--times' name the same file".into()));
    }
    let bytes = read(file)?;
    // As long as the frames can be together, and as many as there can be: what is not used of it
    // takes no memory.
    let mut room = vec![0; bytes.len()];
    let mut rows = vec![[0; 2]; bytes.len() / (RECORD + 7)];
    match import(&mut room, &mut rows, &bytes) {
        Err(stop) => Ok(refused(&named(file), stop, "")),
        Ok(import) => {
            let (mut stretch, mut table) = (Output::open(Some(out))?, Output::open(Some(times))?);
            stretch.text().extend_from_slice(import.stretch);
            for time in import.times.as_flattened() {
                table.text().extend_from_slice(&time.to_le_bytes());
            }
            finish_all(vec![stretch, table])?;
            Ok(Status::Sound)
        }
    }
}

fn exported(
    words: &Words,
    file: &OsStr,
    out: &OsStr,
    times: Option<&OsStr>,
) -> Result<Status, Failure> {
    if is_standard(file) && times.is_some_and(is_standard) {
        return Err(words.wrong("standard input is one file, and not two".into()));
    }
    let stretch = read(file)?;
    // A frame has seven bytes at the least.
    let most = stretch.len() / 7;
    let rows = match times {
        Some(times) => table(times)?,
        None => vec![[0; 2]; most],
    };
    let mut room = vec![0; HEADER + stretch.len() + RECORD * most];
    match export(&mut room, &stretch, &rows) {
        Err(stop) => Ok(refused(&named(file), stop, "")),
        Ok(len) => {
            let mut output = Output::open(Some(out))?;
            output.text().extend_from_slice(&room[..len]);
            output.finish()?;
            Ok(Status::Sound)
        }
    }
}

/// All of a file.
fn read(word: &OsStr) -> Result<Vec<u8>, Failure> {
    all_of(word, false).map_err(|error| Failure::file(&named(word), error))
}

/// The rows of a file of times. A part of a row would be dropped unseen.
fn table(word: &OsStr) -> Result<Vec<[u32; 2]>, Failure> {
    let bytes = read(word)?;
    let rows = bytes.chunks_exact(8);
    if !rows.remainder().is_empty() {
        let error = io::Error::new(ErrorKind::InvalidData, "it ends inside a row of 8 bytes");
        return Err(Failure::file(&named(word), error));
    }
    let number = |four: &[u8]| u32::from_le_bytes(four.try_into().expect("four bytes"));
    Ok(rows
        .map(|row| [number(&row[..4]), number(&row[4..])])
        .collect())
}
