//! Streams that the two take differently, as docs/DIFFERENCES.md says: what is left over in a frame
//! runs as a request with the seller's protocol, and is gone with ours.

use std::io;
use std::path::Path;

use p9::protocol::{Tmessage, Tmkdir};

use crate::folder::Folder;
use crate::script::{attach, name, request, version};

/// What a server makes of a stream: the type of each answer, and the directories that are there then.
#[derive(Debug, PartialEq, Eq)]
struct Outcome {
    answers: Vec<u8>,
    made: Vec<String>,
}

/// A request inside another frame: it makes a directory.
fn inner() -> Vec<u8> {
    let (dfid, mode, gid) = (0, 0o755, 0);
    let name = name("inner");
    request(
        8,
        Tmessage::Mkdir(Tmkdir {
            dfid,
            name,
            mode,
            gid,
        }),
    )
}

/// A frame of some type and body, the inner request after that, all under its size.
fn around(ty: u8, body: &[u8]) -> Vec<u8> {
    let inner = inner();
    let size = (7 + body.len() + inner.len()) as u32;
    [&size.to_le_bytes()[..], &[ty, 9, 0], body, &inner].concat()
}

/// What each of the streams is called, the frame that matters in it, and the answer to that.
fn streams() -> [(&'static str, Vec<u8>, u8); 3] {
    [
        // The accident: a Tflush with a request after its last field.
        (
            "a request after the last field",
            around(108, b"\x01\0"),
            109,
        ),
        // A Tlcreate whose name, one byte, is no UTF-8: its last fields would be read no more.
        (
            "a request after a refused name",
            around(14, b"\0\0\0\0\x01\0\xff"),
            7,
        ),
        ("a request in a frame of no known type", around(106, b""), 7),
    ]
}

pub fn all(folder: &Folder) -> io::Result<bool> {
    let mut good = true;
    for (words, frame, answer) in streams() {
        let stream = [request(0, version()), request(1, attach(0)), frame].concat();
        let opening = [101, 105, answer];
        let run_twice = Outcome {
            answers: [&opening[..], &[73]].concat(),
            made: vec!["inner".into()],
        };
        let run_once = Outcome {
            answers: opening.to_vec(),
            made: vec![],
        };
        println!("{words}:");
        good &= told("seller's protocol", theirs(folder, &stream)?, run_twice);
        good &= told("ours", ours(folder, &stream)?, run_once);
    }
    Ok(good)
}

fn told(who: &str, outcome: Outcome, must: Outcome) -> bool {
    let Outcome { answers, made } = &outcome;
    println!(
        "  {who}: {} answers, {} directories made",
        answers.len(),
        made.len()
    );
    if outcome != must {
        eprintln!("server: {outcome:?} should be {must:?}");
    }
    outcome == must
}

macro_rules! served {
    ($name:ident, $krate:ident) => {
        /// The crate has no loop of its own: this one stands for its user's.
        fn $name(folder: &Folder, mut stream: &[u8]) -> io::Result<Outcome> {
            let root = folder.with(stringify!($name))?;
            let (uids, gids) = (Default::default(), Default::default());
            let mut server = $krate::server::Server::new(root.clone(), uids, gids)?;
            let mut answers = Vec::new();
            while !stream.is_empty() {
                let mut answer = Vec::new();
                server.handle_message(&mut stream, &mut answer)?;
                answers.push(answer[4]);
            }
            let made = names(&root)?;
            std::fs::remove_dir_all(root)?;
            Ok(Outcome { answers, made })
        }
    };
}

served!(theirs, p9);
served!(ours, swapped);

fn names(root: &Path) -> io::Result<Vec<String>> {
    let entries = std::fs::read_dir(root)?;
    let name = |entry: io::Result<std::fs::DirEntry>| {
        entry.map(|entry| entry.file_name().to_string_lossy().into_owned())
    };
    entries.map(name).collect()
}
