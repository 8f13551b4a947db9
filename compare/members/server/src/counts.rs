//! A directory with names of many lengths, listed by every count up to more than all its entries take:
//! from its start, and on from where each reply ends.

use p9::protocol::*;

use crate::script::{attach, name, request, version, walk};
use crate::twins::Twins;

const FILES: usize = 40;

/// The link that each tree has, the directory itself and the one above.
const OTHERS: usize = 3;

const ROOT: u32 = 0;
const MADE: u32 = 1;
const LISTED: u32 = 2;

/// Whether all entries are listed by each count that every entry fits.
pub fn all(twins: &mut Twins) -> bool {
    let mut asked = vec![version(), attach(ROOT)];
    asked.extend((0..FILES).flat_map(making));
    asked.push(walk(ROOT, LISTED, &[]));
    let (fid, flags) = (LISTED, 0);
    asked.push(Tmessage::Lopen(Tlopen { fid, flags }));
    for msg in asked {
        let _ = twins.ask(&request(1, msg));
    }

    let widest = (0..FILES).map(|i| 24 + file(i).len() as u32).max();
    let counts = (0..=2500).chain([8191, 8192, 8193, 100_000, u32::MAX]);
    let mut good = true;
    for count in counts {
        let entries = listed(twins, count);
        if Some(count) >= widest && entries != FILES + OTHERS {
            eprintln!("server: by a count of {count}, {entries} entries are listed");
            good = false;
        }
    }
    good
}

/// Of 1 to 41 bytes, some letters of two or three.
fn file(i: usize) -> String {
    let letter = ['a', 'ö', '€'][i % 3];
    format!("{}{i}", letter.to_string().repeat(i / letter.len_utf8()))
}

fn making(i: usize) -> [Tmessage; 3] {
    let create = Tlcreate {
        fid: MADE,
        name: name(&file(i)),
        flags: 2,
        mode: 0o644,
        gid: 0,
    };
    [
        walk(ROOT, MADE, &[]),
        Tmessage::Lcreate(create),
        Tmessage::Clunk(Tclunk { fid: MADE }),
    ]
}

/// How many entries there are by that count, asked until a reply has none.
fn listed(twins: &mut Twins, count: u32) -> usize {
    let (mut entries, mut offset, fid) = (0, 0, LISTED);
    loop {
        let asked = Tmessage::Readdir(Treaddir { fid, offset, count });
        let Ok(reply) = twins.ask(&request(1, asked)) else {
            return entries;
        };
        // After the header and the data's count.
        let mut block = reply.get(11..).unwrap_or_default();
        let before = entries;
        while let Ok(entry) = Dirent::decode(&mut block) {
            (entries, offset) = (entries + 1, entry.offset);
        }
        if entries == before {
            return entries;
        }
    }
}
