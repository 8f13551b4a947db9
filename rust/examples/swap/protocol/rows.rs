// Written by tools/messages from its table of messages.
// Which record each type has, and which have none.

message! {
    /// A request.
    Tmessage
    8 Statfs: Tstatfs { fid: u32, }
    12 Lopen: Tlopen { fid: u32, flags: u32, }
    14 Lcreate: Tlcreate<'a> { fid: u32, name: P9String, flags: u32, mode: u32, gid: u32, }
    16 Symlink: Tsymlink<'a> { fid: u32, name: P9String, symtgt: P9String, gid: u32, }
    18 Mknod: Tmknod<'a> { dfid: u32, name: P9String, mode: u32, major: u32, minor: u32, gid: u32, }
    20 Rename: Trename<'a> { fid: u32, dfid: u32, name: P9String, }
    22 Readlink: Treadlink { fid: u32, }
    24 GetAttr: Tgetattr { fid: u32, request_mask: u64, }
    26 SetAttr: Tsetattr {
        fid: u32, valid: u32, mode: u32, uid: u32, gid: u32, size: u64, atime_sec: u64,
        atime_nsec: u64, mtime_sec: u64, mtime_nsec: u64,
    }
    30 XattrWalk: Txattrwalk<'a> { fid: u32, newfid: u32, name: P9String, }
    32 XattrCreate: Txattrcreate<'a> { fid: u32, name: P9String, attr_size: u64, flags: u32, }
    40 Readdir: Treaddir { fid: u32, offset: u64, count: u32, }
    50 Fsync: Tfsync { fid: u32, datasync: u32, }
    52 Lock: Tlock<'a> {
        fid: u32, type_: u8, flags: u32, start: u64, length: u64, proc_id: u32, client_id: P9String,
    }
    54 GetLock: Tgetlock<'a> {
        fid: u32, type_: u8, start: u64, length: u64, proc_id: u32, client_id: P9String,
    }
    70 Link: Tlink<'a> { dfid: u32, fid: u32, name: P9String, }
    72 Mkdir: Tmkdir<'a> { dfid: u32, name: P9String, mode: u32, gid: u32, }
    74 RenameAt: Trenameat<'a> {
        olddirfid: u32, oldname: P9String, newdirfid: u32, newname: P9String,
    }
    76 UnlinkAt: Tunlinkat<'a> { dirfd: u32, name: P9String, flags: u32, }
    100 Version: Tversion<'a> { msize: u32, version: P9String, }
    102 Auth: Tauth<'a> { afid: u32, uname: P9String, aname: P9String, n_uname: u32, }
    104 Attach: Tattach<'a> { fid: u32, afid: u32, uname: P9String, aname: P9String, n_uname: u32, }
    108 Flush: Tflush { oldtag: u16, }
    110 Walk: Twalk<'a> { fid: u32, newfid: u32, wnames: Vec<P9String>, }
    116 Read: Tread { fid: u32, offset: u64, count: u32, }
    118 Write: Twrite<'a> { fid: u32, offset: u64, data: Data, }
    120 Clunk: Tclunk { fid: u32, }
    122 Remove: Tremove { fid: u32, }
    empty:
}

message! {
    /// A reply.
    Rmessage
    7 Lerror: Rlerror { ecode: u32, }
    9 Statfs: Rstatfs {
        ty: u32, bsize: u32, blocks: u64, bfree: u64, bavail: u64, files: u64, ffree: u64,
        fsid: u64, namelen: u32,
    }
    13 Lopen: Rlopen { qid: Qid, iounit: u32, }
    15 Lcreate: Rlcreate { qid: Qid, iounit: u32, }
    17 Symlink: Rsymlink { qid: Qid, }
    19 Mknod: Rmknod { qid: Qid, }
    23 Readlink: Rreadlink<'a> { target: P9String, }
    25 GetAttr: Rgetattr {
        valid: u64, qid: Qid, mode: u32, uid: u32, gid: u32, nlink: u64, rdev: u64, size: u64,
        blksize: u64, blocks: u64, atime_sec: u64, atime_nsec: u64, mtime_sec: u64, mtime_nsec: u64,
        ctime_sec: u64, ctime_nsec: u64, btime_sec: u64, btime_nsec: u64, gen: u64,
        data_version: u64,
    }
    31 XattrWalk: Rxattrwalk { size: u64, }
    41 Readdir: Rreaddir<'a> { data: Data, }
    53 Lock: Rlock { status: u8, }
    55 GetLock: Rgetlock<'a> {
        type_: u8, start: u64, length: u64, proc_id: u32, client_id: P9String,
    }
    73 Mkdir: Rmkdir { qid: Qid, }
    101 Version: Rversion<'a> { msize: u32, version: P9String, }
    103 Auth: Rauth { aqid: Qid, }
    105 Attach: Rattach { qid: Qid, }
    111 Walk: Rwalk<'a> { wqids: Vec<Qid>, }
    117 Read: Rread<'a> { data: Data, }
    119 Write: Rwrite { count: u32, }
    empty:
    21 Rename: Rrename
    27 SetAttr: Rsetattr
    33 XattrCreate: Rxattrcreate
    51 Fsync: Rfsync
    71 Link: Rlink
    75 RenameAt: Rrenameat
    77 UnlinkAt: Runlinkat
    109 Flush: Rflush
    121 Clunk: Rclunk
    123 Remove: Rremove
}
