//! Our records in Rust beside the seller's: a field belongs to the field of the same name and type.
//!
//! The names stand here in the order of the alphabet, since no order is looked at. One that either
//! record does not have, or that is missing here, does not compile.

use p9::protocol as seller;

use super::fields::{Beside, Room};
use super::Found;
use crate::compare::{differs, Outcome};

fn named(name: &str, found: Found) -> Found {
    match found? {
        Outcome::Differs { ours, theirs } => Some(differs(format!("{name} {ours}"), theirs)),
        same => Some(same),
    }
}

fn another(ours: &str) -> Found {
    Some(differs(ours.into(), "another message".into()))
}

macro_rules! difference {
    ($record:ident $ours:ident $theirs:ident $($field:ident)*) => {{
        // A field that is not named would leave one of these patterns incomplete.
        let sheafsledge::$record { $($field: _),* } = $ours;
        let seller::$record { $($field: _),* } = $theirs;
        None$(.or_else(|| {
            let name = concat!(stringify!($record), ".", stringify!($field));
            named(name, $ours.$field.difference(&$theirs.$field))
        }))*
    }};
}

macro_rules! made {
    ($record:ident $theirs:ident $room:ident $($field:ident)*) => {
        sheafsledge::$record { $($field: Beside::made(&$theirs.$field, $room)),* }
    };
}

macro_rules! record {
    ($ours:ty: $record:ident { $($field:ident)* }) => {
        impl<'a> Beside<'a, seller::$record> for $ours {
            fn difference(&self, theirs: &seller::$record) -> Found {
                difference!($record self theirs $($field)*)
            }

            fn made(theirs: &'a seller::$record, room: &Room<'a>) -> Self {
                made!($record theirs room $($field)*)
            }
        }
    };
}

/// A match on ours and one on theirs, so that neither has a message that is not named.
macro_rules! messages {
    (
        $message:ident
        $($case:ident $record:ident { $($field:ident)* })*
        ; empty: $($empty:ident)*
    ) => {
        impl<'a> Beside<'a, seller::$message> for sheafsledge::$message<'a> {
            fn difference(&self, theirs: &seller::$message) -> Found {
                match self {
                    $(Self::$case(ours) => match theirs {
                        seller::$message::$case(theirs) => {
                            difference!($record ours theirs $($field)*)
                        }
                        _ => another(stringify!($record)),
                    },)*
                    $(Self::$empty => match theirs {
                        seller::$message::$empty => None,
                        _ => another(stringify!($empty)),
                    },)*
                }
            }

            fn made(theirs: &'a seller::$message, room: &Room<'a>) -> Self {
                match theirs {
                    $(seller::$message::$case(theirs) => {
                        Self::$case(made!($record theirs room $($field)*))
                    })*
                    $(seller::$message::$empty => Self::$empty,)*
                }
            }
        }
    };
}

record!(sheafsledge::Tframe<'a>: Tframe { msg tag });
record!(sheafsledge::Rframe<'a>: Rframe { msg tag });
record!(sheafsledge::Dirent<'a>: Dirent { name offset qid ty });
record!(sheafsledge::Qid: Qid { path ty version });

messages! {
    Tmessage
    Statfs Tstatfs { fid }
    Lopen Tlopen { fid flags }
    Lcreate Tlcreate { fid flags gid mode name }
    Symlink Tsymlink { fid gid name symtgt }
    Mknod Tmknod { dfid gid major minor mode name }
    Rename Trename { dfid fid name }
    Readlink Treadlink { fid }
    GetAttr Tgetattr { fid request_mask }
    SetAttr Tsetattr { atime_nsec atime_sec fid gid mode mtime_nsec mtime_sec size uid valid }
    XattrWalk Txattrwalk { fid name newfid }
    XattrCreate Txattrcreate { attr_size fid flags name }
    Readdir Treaddir { count fid offset }
    Fsync Tfsync { datasync fid }
    Lock Tlock { client_id fid flags length proc_id start type_ }
    GetLock Tgetlock { client_id fid length proc_id start type_ }
    Link Tlink { dfid fid name }
    Mkdir Tmkdir { dfid gid mode name }
    RenameAt Trenameat { newdirfid newname olddirfid oldname }
    UnlinkAt Tunlinkat { dirfd flags name }
    Version Tversion { msize version }
    Auth Tauth { afid aname n_uname uname }
    Attach Tattach { afid aname fid n_uname uname }
    Flush Tflush { oldtag }
    Walk Twalk { fid newfid wnames }
    Read Tread { count fid offset }
    Write Twrite { data fid offset }
    Clunk Tclunk { fid }
    Remove Tremove { fid }
    ; empty:
}

messages! {
    Rmessage
    Lerror Rlerror { ecode }
    Statfs Rstatfs { bavail bfree blocks bsize ffree files fsid namelen ty }
    Lopen Rlopen { iounit qid }
    Lcreate Rlcreate { iounit qid }
    Symlink Rsymlink { qid }
    Mknod Rmknod { qid }
    Readlink Rreadlink { target }
    GetAttr Rgetattr {
        atime_nsec atime_sec blksize blocks btime_nsec btime_sec ctime_nsec ctime_sec data_version
        gen gid mode mtime_nsec mtime_sec nlink qid rdev size uid valid
    }
    XattrWalk Rxattrwalk { size }
    Readdir Rreaddir { data }
    Lock Rlock { status }
    GetLock Rgetlock { client_id length proc_id start type_ }
    Mkdir Rmkdir { qid }
    Version Rversion { msize version }
    Auth Rauth { aqid }
    Attach Rattach { qid }
    Walk Rwalk { wqids }
    Read Rread { data }
    Write Rwrite { count }
    ; empty: Rename SetAttr XattrCreate Fsync Link RenameAt UnlinkAt Flush Clunk Remove
}
