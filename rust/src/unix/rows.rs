// Written by tools/messages from its table of messages.
// Which record each type has, and which have none.

records! {
    Tcreate<'a> { fid: Fid, name: Text<'a>, perm: u32, mode: u8, extension: Text<'a>, }
    Twstat<'a> { fid: Fid, stat: Stat<'a>, }
}

records! {
    Rerror<'a> { ename: Text<'a>, errno: u32, }
    Rstat<'a> { stat: Stat<'a>, }
}

message! {
    /// A request.
    Tmessage
    100 Version: Tversion<'a>
    102 Auth: Tauth<'a>
    104 Attach: Tattach<'a>
    108 Flush: Tflush
    110 Walk: Twalk<'a>
    112 Open: Topen
    114 Create: Tcreate<'a>
    116 Read: Tread
    118 Write: Twrite<'a>
    120 Clunk: Tclunk
    122 Remove: Tremove
    124 Stat: Tstat
    126 Wstat: Twstat<'a>
    empty:
}

message! {
    /// A reply.
    Rmessage
    101 Version: Rversion<'a>
    103 Auth: Rauth
    105 Attach: Rattach
    107 Error: Rerror<'a>
    111 Walk: Rwalk<'a>
    113 Open: Ropen
    115 Create: Rcreate
    117 Read: Rread<'a>
    119 Write: Rwrite
    125 Stat: Rstat<'a>
    empty:
    109 Flush: Rflush
    121 Clunk: Rclunk
    123 Remove: Rremove
    127 Wstat: Rwstat
}
