//! The seller's server over its own protocol, over ours, and over ours with a `readdir` that packs, each
//! on a tree of its own, asked the same.

use std::collections::BTreeMap;
use std::io;
use std::os::unix::fs::symlink;
use std::path::PathBuf;

use p9::show::hex;

use crate::folder::{tree, Folder};

/// A symbolic link in each tree.
pub const LINK: &str = "link";

/// How many requests of a type were asked, and how many were answered with more than an error.
pub type Counts = BTreeMap<u8, (u64, u64)>;

/// The servers are one text in three crates, so they share no type.
pub struct Twins {
    theirs: p9::server::Server,
    ours: swapped::server::Server,
    packing: packing::server::Server,
    roots: [PathBuf; 3],
    asked: u64,
    differ: u64,
    counts: Counts,
}

/// The reply, or the kind of error that ends the session.
type Answer = Result<Vec<u8>, io::ErrorKind>;

const RLERROR: u8 = 7;

impl Twins {
    pub fn new(folder: &Folder, name: &str) -> io::Result<Self> {
        let mut roots = Vec::new();
        for side in ["theirs", "ours", "packing"] {
            let root = folder.with(&format!("{name}-{side}"))?;
            // The server makes none, and reads those that are there.
            symlink("größe", root.join(LINK))?;
            roots.push(root);
        }
        let roots: [PathBuf; 3] = roots.try_into().expect("three were made");
        macro_rules! serving {
            ($server:path, $root:expr) => {{
                use $server as server;
                server::Server::new($root.clone(), Default::default(), Default::default())?
            }};
        }
        Ok(Self {
            theirs: serving!(p9::server, roots[0]),
            ours: serving!(swapped::server, roots[1]),
            packing: serving!(packing::server, roots[2]),
            roots,
            asked: 0,
            differ: 0,
            counts: Counts::new(),
        })
    }

    pub fn counts(&self) -> &Counts {
        &self.counts
    }

    /// One request, which each reads from a stream that holds it alone. Answers the reply.
    pub fn ask(&mut self, request: &[u8]) -> Answer {
        macro_rules! answer {
            ($server:ident) => {{
                let mut reply = Vec::new();
                let done = self.$server.handle_message(&mut &*request, &mut reply);
                done.map(|()| reply).map_err(|error| error.kind())
            }};
        }
        let theirs: Answer = answer!(theirs);
        let (ours, packing): (Answer, Answer) = (answer!(ours), answer!(packing));
        self.asked += 1;
        if ours != theirs || packing != theirs {
            self.differ += 1;
            if self.differ < 10 {
                eprintln!("server: {}:", hex(request));
                eprintln!("  ours {}, theirs {}", shown(&ours), shown(&theirs));
                eprintln!("  with our readdir {}", shown(&packing));
            }
        }
        self.count(request, &theirs);
        theirs
    }

    fn count(&mut self, request: &[u8], answer: &Answer) {
        let Some(ty) = request.get(4) else { return };
        let (asked, done) = self.counts.entry(*ty).or_default();
        *asked += 1;
        let is_done = answer.as_ref().is_ok_and(|reply| reply[4] != RLERROR);
        *done += u64::from(is_done);
    }

    /// Whether all replies were the same, and the trees are.
    pub fn ended(&self, name: &str) -> io::Result<bool> {
        let theirs = tree(&self.roots[0])?;
        let mut same = true;
        for root in &self.roots[1..] {
            let ours = tree(root)?;
            if theirs != ours {
                same = false;
                let mut pairs = theirs.iter().zip(&ours);
                let other = pairs.find(|(theirs, ours)| theirs != ours);
                eprintln!("server: the trees differ, first in {other:?}");
            }
        }
        println!(
            "{name}: {} requests, {} replies differ; trees of {} files {}",
            self.asked,
            self.differ,
            theirs.len(),
            if same { "are equal" } else { "differ" }
        );
        Ok(same && self.differ == 0)
    }
}

fn shown(answer: &Answer) -> String {
    match answer {
        Ok(reply) => hex(reply),
        Err(kind) => format!("{kind:?}"),
    }
}
