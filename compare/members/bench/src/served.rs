//! The seller's server on one request, over its own protocol and over our crate.

use std::hint::black_box;
use std::path::PathBuf;
use std::{env, fs, io, process};

use judge::cases::bytes;
use p9::protocol::*;

use crate::clock::{least, Place};
use crate::row;

const ROOT: u32 = 0;
const FILE: u32 = 1;
const OTHER: u32 = 2;

/// The name of the file that is written and walked to.
const NAME: &str = "track000";

/// The rows. There are none, and the answer is `false`, unless both give the same answers.
pub fn rows() -> bool {
    let folder = env::temp_dir().join(format!("sheafsledge-bench-{}", process::id()));
    let done = fs::create_dir(&folder)
        .and_then(|()| fs::write(folder.join(NAME), []))
        .and_then(|()| in_folder(&folder));
    let _ = fs::remove_dir_all(&folder);
    match done {
        Ok(done) => done,
        Err(error) => {
            eprintln!("bench: the servers: {error}");
            false
        }
    }
}

/// One folder for both: nothing is made in it.
fn in_folder(folder: &PathBuf) -> io::Result<bool> {
    let (uids, gids) = (Default::default(), Default::default());
    let mut theirs = p9::server::Server::new(folder.clone(), uids, gids)?;
    let (uids, gids) = (Default::default(), Default::default());
    let mut ours = swapped::server::Server::new(folder.clone(), uids, gids)?;
    let mut asked = |request: &[u8], turns| -> io::Result<[Vec<u8>; 2]> {
        let mut replies = [Vec::new(), Vec::new()];
        for _ in 0..turns {
            replies.iter_mut().for_each(Vec::clear);
            theirs.handle_message(&mut &*request, &mut replies[0])?;
            ours.handle_message(&mut &*request, &mut replies[1])?;
        }
        Ok(replies)
    };
    for msg in opening() {
        asked(&request(msg), 1)?;
    }
    for (name, msg) in requests() {
        let request = request(msg);
        let [first, second] = asked(&request, 1)?;
        if first != second || first[4] == 7 {
            eprintln!("bench: the two servers do not answer {name} alike");
            return Ok(false);
        }
    }
    for (name, msg) in requests() {
        measured(name, &request(msg), (&mut ours, &mut theirs));
    }
    Ok(true)
}

/// Into a Vec that keeps its room, as a connection's buffer would.
fn measured(
    name: &str,
    request: &[u8],
    (ours, theirs): (&mut swapped::server::Server, &mut p9::server::Server),
) {
    let mut reply = Vec::new();
    let mut swapped = |turns, _: Place| {
        for _ in 0..turns {
            reply.clear();
            black_box(&ours.handle_message(&mut black_box(request), &mut reply));
        }
    };
    let mut reply = Vec::new();
    let mut original = |turns, _: Place| {
        for _ in 0..turns {
            reply.clear();
            black_box(&theirs.handle_message(&mut black_box(request), &mut reply));
        }
    };
    let [ours, theirs] = least([&mut swapped, &mut original]);
    row(name, "serve", ours, theirs);
}

fn request(msg: Tmessage) -> Vec<u8> {
    let msg = Ok(msg);
    bytes(&Tframe { tag: 1, msg })
}

fn name(name: &str) -> P9String {
    P9String::new(name).expect("no zero byte is in it")
}

fn walk(fid: u32, newfid: u32, names: &[&str]) -> Tmessage {
    let wnames = names.iter().map(|part| name(part)).collect();
    Tmessage::Walk(Twalk {
        fid,
        newfid,
        wnames,
    })
}

fn opening() -> [Tmessage; 5] {
    let (msize, version) = (1 << 20, name("9P2000.L"));
    let (uname, aname, n_uname) = (name("root"), name(""), 0);
    let (fid, afid) = (ROOT, u32::MAX);
    let flags = 2;
    [
        Tmessage::Version(Tversion { msize, version }),
        Tmessage::Attach(Tattach {
            fid,
            afid,
            uname,
            aname,
            n_uname,
        }),
        walk(ROOT, OTHER, &[]),
        walk(ROOT, FILE, &[NAME]),
        Tmessage::Lopen(Tlopen { fid: FILE, flags }),
    ]
}

fn requests() -> [(&'static str, Tmessage); 4] {
    let (fid, offset, request_mask) = (FILE, 0, 0x7ff);
    let data = Data(vec![7; 65_536]);
    [
        ("serve-Tflush", Tmessage::Flush(Tflush { oldtag: 2 })),
        (
            "serve-Tgetattr",
            Tmessage::GetAttr(Tgetattr { fid, request_mask }),
        ),
        (
            "serve-Twrite-64KiB",
            Tmessage::Write(Twrite { fid, offset, data }),
        ),
        // To the directory and the fid that it comes from, so that it can be asked again.
        ("serve-Twalk-3", walk(OTHER, OTHER, &["."; 3])),
    ]
}
