//! Drawn requests of all types: few fids, few names, so that many of them can be done.
//!
//! No byte of them is a slash, and none is a name that leads out of the tree, also where a type or a
//! size is drawn wrong and other bytes are taken for a name.

use p9::draw::{Cases, Draws};
use p9::protocol::*;

use crate::script::{attach, name, request, version, walk};
use crate::twins::{Twins, LINK};

const NAMES: [&str; 8] = ["a", "b", "c", "d", "e", "höhe", "größe", LINK];

/// Fewer than 47, the slash.
const FIDS: usize = 6;

pub fn all(twins: &mut Twins, count: u64, seed: u64) -> bool {
    let draws = &mut Draws::new(seed);
    let _ = twins.ask(&request(0, version()));
    for _ in 0..count {
        let (tag, msg) = (draws.below(40) as u16, message(draws));
        let mut bytes = request(tag, msg);
        match draws.below(20) {
            0 => damage(&mut bytes, draws),
            1 => bytes.truncate(draws.below(bytes.len())),
            _ => {}
        }
        let _ = twins.ask(&bytes);
    }
    true
}

/// In the size, the type or the tag.
fn damage(bytes: &mut [u8], draws: &mut Draws) {
    let place = draws.one_of(&[0, 0, 0, 1, 4, 4, 5]);
    bytes[place] = match place {
        0 => bytes[0].wrapping_add(draws.one_of(&[1, 2, 4, 254, 255])),
        4 => draws.byte(),
        _ => draws.below(40) as u8,
    };
}

/// Walks and attachments more often than the rest, which need their fids.
fn message(draws: &mut Draws) -> Tmessage {
    let (one, other) = (fid(draws), fid(draws));
    match draws.below(1000) {
        0 => version(),
        1..=49 => attach(one),
        50..=199 => walk(one, other, &names(draws)),
        200..=239 => Tmessage::Clunk(Tclunk { fid: one }),
        240..=339 => {
            let flags = draws.one_of(&[0, 2, 2, 0o1002]);
            Tmessage::Lopen(Tlopen { fid: one, flags })
        }
        340..=389 => Tmessage::Lcreate(Tlcreate {
            fid: one,
            name: drawn_name(draws),
            flags: 2,
            mode: 0o644,
            gid: 0,
        }),
        _ => {
            let case = draws.one_of(Tmessage::CASES);
            tamed(case(draws), draws)
        }
    }
}

fn fid(draws: &mut Draws) -> u32 {
    draws.below(FIDS) as u32
}

fn names(draws: &mut Draws) -> Vec<&'static str> {
    let count = draws.one_of(&[0, 0, 1, 1, 1, 2, 16]);
    (0..count).map(|_| draws.one_of(&NAMES)).collect()
}

fn drawn_name(draws: &mut Draws) -> P9String {
    name(draws.one_of(&NAMES))
}

/// The same request with numbers and names from few.
fn tamed(msg: Tmessage, draws: &mut Draws) -> Tmessage {
    let (fid, other) = (fid(draws), fid(draws));
    let (offset, count) = (
        draws.below(46) as u64,
        draws.one_of(&[0, 1, 30, 45, 8192, u32::MAX]),
    );
    let (mode, gid) = (draws.one_of(&[0o600, 0o644]), 0);
    let drawn = drawn_name(draws);
    let data = Data(vec![
        b'a' + draws.below(26) as u8;
        draws.one_of(&[0, 1, 46, 6000])
    ]);
    match msg {
        Tmessage::Statfs(_) => Tmessage::Statfs(Tstatfs { fid }),
        Tmessage::Lopen(_) => Tmessage::Lopen(Tlopen { fid, flags: 0 }),
        Tmessage::Lcreate(_) => Tmessage::Lcreate(Tlcreate {
            fid,
            name: drawn,
            flags: 1,
            mode,
            gid,
        }),
        Tmessage::Symlink(_) => {
            let symtgt = drawn_name(draws);
            Tmessage::Symlink(Tsymlink {
                fid,
                name: drawn,
                symtgt,
                gid,
            })
        }
        Tmessage::Mknod(_) => {
            let (major, minor) = (1, 3);
            Tmessage::Mknod(Tmknod {
                dfid: fid,
                name: drawn,
                mode,
                major,
                minor,
                gid,
            })
        }
        Tmessage::Rename(_) => Tmessage::Rename(Trename {
            fid,
            dfid: other,
            name: drawn,
        }),
        Tmessage::Readlink(_) => Tmessage::Readlink(Treadlink { fid }),
        Tmessage::GetAttr(_) => Tmessage::GetAttr(Tgetattr {
            fid,
            request_mask: offset,
        }),
        Tmessage::SetAttr(_) => Tmessage::SetAttr(Tsetattr {
            fid,
            valid: draws.one_of(&[0, 1, 8, 9, 0x1b0]),
            mode,
            uid: 0,
            gid,
            size: offset,
            atime_sec: offset,
            atime_nsec: 1,
            mtime_sec: 2,
            mtime_nsec: 3,
        }),
        Tmessage::XattrWalk(_) => Tmessage::XattrWalk(Txattrwalk {
            fid,
            newfid: other,
            name: drawn,
        }),
        Tmessage::XattrCreate(_) => {
            let (attr_size, flags) = (offset, 0);
            Tmessage::XattrCreate(Txattrcreate {
                fid,
                name: drawn,
                attr_size,
                flags,
            })
        }
        Tmessage::Readdir(_) => Tmessage::Readdir(Treaddir {
            fid,
            offset: 0,
            count,
        }),
        Tmessage::Fsync(_) => Tmessage::Fsync(Tfsync {
            fid,
            datasync: other,
        }),
        Tmessage::Lock(_) => Tmessage::Lock(Tlock {
            fid,
            type_: 1,
            flags: 2,
            start: offset,
            length: 3,
            proc_id: 4,
            client_id: drawn,
        }),
        Tmessage::GetLock(_) => Tmessage::GetLock(Tgetlock {
            fid,
            type_: 1,
            start: offset,
            length: 3,
            proc_id: 4,
            client_id: drawn,
        }),
        Tmessage::Link(_) => Tmessage::Link(Tlink {
            dfid: fid,
            fid: other,
            name: drawn,
        }),
        Tmessage::Mkdir(_) => Tmessage::Mkdir(Tmkdir {
            dfid: fid,
            name: drawn,
            mode: 0o755,
            gid,
        }),
        Tmessage::RenameAt(_) => {
            let newname = drawn_name(draws);
            let (olddirfid, oldname, newdirfid) = (fid, drawn, other);
            Tmessage::RenameAt(Trenameat {
                olddirfid,
                oldname,
                newdirfid,
                newname,
            })
        }
        Tmessage::UnlinkAt(_) => {
            let flags = draws.one_of(&[0, 0x200]);
            Tmessage::UnlinkAt(Tunlinkat {
                dirfd: fid,
                name: drawn,
                flags,
            })
        }
        Tmessage::Version(_) => attach(fid),
        Tmessage::Auth(_) => {
            let (uname, aname, n_uname) = (drawn, name("nobody"), 0);
            Tmessage::Auth(Tauth {
                afid: fid,
                uname,
                aname,
                n_uname,
            })
        }
        Tmessage::Attach(_) => attach(fid),
        Tmessage::Flush(_) => Tmessage::Flush(Tflush { oldtag: 3 }),
        Tmessage::Walk(_) => walk(fid, other, &names(draws)),
        Tmessage::Read(_) => Tmessage::Read(Tread { fid, offset, count }),
        Tmessage::Write(_) => Tmessage::Write(Twrite { fid, offset, data }),
        Tmessage::Clunk(_) => Tmessage::Clunk(Tclunk { fid }),
        Tmessage::Remove(_) => Tmessage::Remove(Tremove { fid }),
    }
}
