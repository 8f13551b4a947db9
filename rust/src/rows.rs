// Written by tools/messages from its table of messages.
// Which record each type has, and which have none.

records! {
    Tstatfs { fid: Fid, }
    Tlopen { fid: Fid, flags: u32, }
    Tlcreate<'a> { fid: Fid, name: Text<'a>, flags: u32, mode: u32, gid: Gid, }
    Tsymlink<'a> { fid: Fid, name: Text<'a>, symtgt: Text<'a>, gid: Gid, }
    Tmknod<'a> { dfid: Fid, name: Text<'a>, mode: u32, major: u32, minor: u32, gid: Gid, }
    Trename<'a> { fid: Fid, dfid: Fid, name: Text<'a>, }
    Treadlink { fid: Fid, }
    Tgetattr { fid: Fid, request_mask: u64, }
    Tsetattr {
        fid: Fid, valid: u32, mode: u32, uid: u32, gid: Gid, size: u64, atime_sec: u64,
        atime_nsec: u64, mtime_sec: u64, mtime_nsec: u64,
    }
    Txattrwalk<'a> { fid: Fid, newfid: Fid, name: Text<'a>, }
    Txattrcreate<'a> { fid: Fid, name: Text<'a>, attr_size: u64, flags: u32, }
    Treaddir { fid: Fid, offset: u64, count: u32, }
    Tfsync { fid: Fid, datasync: u32, }
    Tlock<'a> {
        fid: Fid, type_: u8, flags: u32, start: u64, length: u64, proc_id: u32, client_id: Text<'a>,
    }
    Tgetlock<'a> {
        fid: Fid, type_: u8, start: u64, length: u64, proc_id: u32, client_id: Text<'a>,
    }
    Tlink<'a> { dfid: Fid, fid: Fid, name: Text<'a>, }
    Tmkdir<'a> { dfid: Fid, name: Text<'a>, mode: u32, gid: Gid, }
    Trenameat<'a> { olddirfid: Fid, oldname: Text<'a>, newdirfid: Fid, newname: Text<'a>, }
    Tunlinkat<'a> { dirfd: Fid, name: Text<'a>, flags: u32, }
    Tversion<'a> { msize: u32, version: Text<'a>, }
    Tauth<'a> { afid: Fid, uname: Text<'a>, aname: Text<'a>, n_uname: u32, }
    Tattach<'a> { fid: Fid, afid: Fid, uname: Text<'a>, aname: Text<'a>, n_uname: u32, }
    Tflush { oldtag: Tag, }
    Twalk<'a> { fid: Fid, newfid: Fid, wnames: Names<'a>, }
    Tread { fid: Fid, offset: u64, count: u32, }
    Twrite<'a> { fid: Fid, offset: u64, data: Data<'a>, }
    Tclunk { fid: Fid, }
    Tremove { fid: Fid, }
}

records! {
    Rlerror { ecode: u32, }
    Rstatfs {
        ty: u32, bsize: u32, blocks: u64, bfree: u64, bavail: u64, files: u64, ffree: u64,
        fsid: u64, namelen: u32,
    }
    Rlopen { qid: Qid, iounit: u32, }
    Rlcreate { qid: Qid, iounit: u32, }
    Rsymlink { qid: Qid, }
    Rmknod { qid: Qid, }
    Rreadlink<'a> { target: Text<'a>, }
    Rgetattr {
        valid: u64, qid: Qid, mode: u32, uid: u32, gid: Gid, nlink: u64, rdev: u64, size: u64,
        blksize: u64, blocks: u64, atime_sec: u64, atime_nsec: u64, mtime_sec: u64, mtime_nsec: u64,
        ctime_sec: u64, ctime_nsec: u64, btime_sec: u64, btime_nsec: u64, gen: u64,
        data_version: u64,
    }
    Rxattrwalk { size: u64, }
    Rreaddir<'a> { data: Data<'a>, }
    Rlock { status: u8, }
    Rgetlock<'a> { type_: u8, start: u64, length: u64, proc_id: u32, client_id: Text<'a>, }
    Rmkdir { qid: Qid, }
    Rversion<'a> { msize: u32, version: Text<'a>, }
    Rauth { aqid: Qid, }
    Rattach { qid: Qid, }
    Rwalk<'a> { wqids: Qids<'a>, }
    Rread<'a> { data: Data<'a>, }
    Rwrite { count: u32, }
}

message! {
    /// A request.
    Tmessage
    8 Statfs: Tstatfs
    12 Lopen: Tlopen
    14 Lcreate: Tlcreate<'a>
    16 Symlink: Tsymlink<'a>
    18 Mknod: Tmknod<'a>
    20 Rename: Trename<'a>
    22 Readlink: Treadlink
    24 GetAttr: Tgetattr
    26 SetAttr: Tsetattr
    30 XattrWalk: Txattrwalk<'a>
    32 XattrCreate: Txattrcreate<'a>
    40 Readdir: Treaddir
    50 Fsync: Tfsync
    52 Lock: Tlock<'a>
    54 GetLock: Tgetlock<'a>
    70 Link: Tlink<'a>
    72 Mkdir: Tmkdir<'a>
    74 RenameAt: Trenameat<'a>
    76 UnlinkAt: Tunlinkat<'a>
    100 Version: Tversion<'a>
    102 Auth: Tauth<'a>
    104 Attach: Tattach<'a>
    108 Flush: Tflush
    110 Walk: Twalk<'a>
    116 Read: Tread
    118 Write: Twrite<'a>
    120 Clunk: Tclunk
    122 Remove: Tremove
    empty:
}

message! {
    /// A reply.
    Rmessage
    7 Lerror: Rlerror
    9 Statfs: Rstatfs
    13 Lopen: Rlopen
    15 Lcreate: Rlcreate
    17 Symlink: Rsymlink
    19 Mknod: Rmknod
    23 Readlink: Rreadlink<'a>
    25 GetAttr: Rgetattr
    31 XattrWalk: Rxattrwalk
    41 Readdir: Rreaddir<'a>
    53 Lock: Rlock
    55 GetLock: Rgetlock<'a>
    73 Mkdir: Rmkdir
    101 Version: Rversion<'a>
    103 Auth: Rauth
    105 Attach: Rattach
    111 Walk: Rwalk<'a>
    117 Read: Rread<'a>
    119 Write: Rwrite
    empty:
    21 Rename: Rrename
    27 SetAttr: Rsetattr
    33 XattrCreate: Rxattrcreate
    51 Fsync: Rfsync
    71 Link: Rlink
    75 RenameAt: Rrenameat
    77 UnlinkAt: Runlinkat
    109 Flush: Rflush
    121 Clunk: Rclunk
    123 Remove: Rremove
}
