//! A request of each of the 28 types, in an order in which those that can be done are done.

use judge::cases::bytes;
use p9::protocol::*;

use crate::twins::{Twins, LINK};

/// What the seller's server answers with an error whatever is asked: auth, symlinks, nodes, names of
/// attributes, and what Linux's client does by other means.
pub const NEVER_DONE: [u8; 7] = [16, 18, 20, 30, 32, 102, 122];

const NO_FID: u32 = u32::MAX;
const RDWR: u32 = 2;

pub fn name(name: &str) -> P9String {
    P9String::new(name).expect("no zero byte is in it")
}

pub fn request(tag: u16, msg: Tmessage) -> Vec<u8> {
    bytes(&Tframe { tag, msg: Ok(msg) })
}

pub fn version() -> Tmessage {
    let (msize, version) = (8192, name("9P2000.L"));
    Tmessage::Version(Tversion { msize, version })
}

pub fn attach(fid: u32) -> Tmessage {
    Tmessage::Attach(Tattach {
        fid,
        afid: NO_FID,
        uname: name("root"),
        aname: name(""),
        n_uname: 0,
    })
}

pub fn walk(fid: u32, newfid: u32, names: &[&str]) -> Tmessage {
    let wnames = names.iter().map(|part| name(part)).collect();
    Tmessage::Walk(Twalk {
        fid,
        newfid,
        wnames,
    })
}

/// Fid 0 is the root, 1 a file `a` that is made and open, 2 the directory `d`, 3 a file that is read.
fn requests() -> Vec<Tmessage> {
    let uname = || name("root");
    let (mode, gid) = (0o644, 0);
    vec![
        version(),
        Tmessage::Auth(Tauth {
            afid: 9,
            uname: uname(),
            aname: name(""),
            n_uname: 0,
        }),
        attach(0),
        Tmessage::Statfs(Tstatfs { fid: 0 }),
        walk(0, 1, &[]),
        Tmessage::Lcreate(Tlcreate {
            fid: 1,
            name: name("a"),
            flags: RDWR,
            mode,
            gid,
        }),
        Tmessage::Write(Twrite {
            fid: 1,
            offset: 3,
            data: Data(vec![7; 5000]),
        }),
        Tmessage::Fsync(Tfsync {
            fid: 1,
            datasync: 0,
        }),
        Tmessage::Read(Tread {
            fid: 1,
            offset: 1,
            count: 100,
        }),
        Tmessage::Read(Tread {
            fid: 1,
            offset: 0,
            count: 100_000,
        }),
        Tmessage::GetAttr(Tgetattr {
            fid: 1,
            request_mask: 0x7ff,
        }),
        Tmessage::SetAttr(Tsetattr {
            fid: 1,
            valid: 1 | 8,
            mode: 0o600,
            uid: 0,
            gid,
            size: 4000,
            atime_sec: 0,
            atime_nsec: 0,
            mtime_sec: 0,
            mtime_nsec: 0,
        }),
        Tmessage::GetAttr(Tgetattr {
            fid: 1,
            request_mask: 0x7ff,
        }),
        Tmessage::Lock(Tlock {
            fid: 1,
            type_: 1,
            flags: 0,
            start: 1,
            length: 2,
            proc_id: 3,
            client_id: name("größe"),
        }),
        Tmessage::GetLock(Tgetlock {
            fid: 1,
            type_: 1,
            start: u64::MAX,
            length: 2,
            proc_id: 3,
            client_id: name("größe"),
        }),
        Tmessage::Mkdir(Tmkdir {
            dfid: 0,
            name: name("d"),
            mode: 0o755,
            gid,
        }),
        walk(0, 2, &["d"]),
        Tmessage::Link(Tlink {
            dfid: 2,
            fid: 1,
            name: name("höhe"),
        }),
        Tmessage::Symlink(Tsymlink {
            fid: 0,
            name: name("s"),
            symtgt: name("a"),
            gid,
        }),
        Tmessage::Mknod(Tmknod {
            dfid: 0,
            name: name("n"),
            mode,
            major: 1,
            minor: 3,
            gid,
        }),
        Tmessage::Rename(Trename {
            fid: 1,
            dfid: 2,
            name: name("r"),
        }),
        Tmessage::RenameAt(Trenameat {
            olddirfid: 2,
            oldname: name("höhe"),
            newdirfid: 0,
            newname: name("b"),
        }),
        walk(0, 3, &["d", "..", "b"]),
        walk(0, 4, &["d", "none", "b"]),
        walk(0, 4, &["none"]),
        Tmessage::Lopen(Tlopen { fid: 3, flags: 0 }),
        Tmessage::Readlink(Treadlink { fid: 3 }),
        walk(0, 6, &[LINK]),
        Tmessage::Readlink(Treadlink { fid: 6 }),
        Tmessage::XattrWalk(Txattrwalk {
            fid: 3,
            newfid: 7,
            name: name("user.x"),
        }),
        Tmessage::XattrCreate(Txattrcreate {
            fid: 3,
            name: name("user.x"),
            attr_size: 1,
            flags: 0,
        }),
        Tmessage::UnlinkAt(Tunlinkat {
            dirfd: 0,
            name: name("a"),
            flags: 0,
        }),
        walk(0, 5, &[]),
        Tmessage::Lopen(Tlopen { fid: 5, flags: 0 }),
        Tmessage::Readdir(Treaddir {
            fid: 5,
            offset: 0,
            count: 60,
        }),
        Tmessage::Readdir(Treaddir {
            fid: 5,
            offset: 0,
            count: 4096,
        }),
        Tmessage::Flush(Tflush { oldtag: 3 }),
        Tmessage::Remove(Tremove { fid: 3 }),
        Tmessage::Clunk(Tclunk { fid: 3 }),
        Tmessage::Clunk(Tclunk { fid: 3 }),
    ]
}

/// Whether each type is among them.
pub fn all(twins: &mut Twins) -> bool {
    for (tag, msg) in requests().into_iter().enumerate() {
        // What is refused, the twins are held to as well.
        let _ = twins.ask(&request(tag as u16, msg));
    }
    let types = twins.counts().len();
    if types != 28 {
        eprintln!("server: the script asks for {types} types, not for 28");
    }
    types == 28
}
