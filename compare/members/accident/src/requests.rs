//! The requests, byte by byte from the paper's layouts; no codec has a part in them.

/// The file that is written to: the name in TWALK.
pub const FILE: &str = "log";

/// The tag of the Twrite.
pub const TAG: u16 = 9;

/// What goes before: a session, its root as fid 1, the file as fid 2, opened to append.
pub const OPENING: [&[u8]; 4] = [TVERSION, TATTACH, TWALK, TLOPEN];

/// msize 8192, "9P2000.L".
const TVERSION: &[u8] = b"\x15\0\0\0\x64\xff\xff\0\x20\0\0\x08\0\
    9P2000.L";

/// Tag 1: fid 1, no afid, no names, user number 0.
const TATTACH: &[u8] = b"\x17\0\0\0\x68\x01\0\x01\0\0\0\xff\xff\xff\xff\0\0\0\0\0\0\0\0";

/// Tag 2: from fid 1 to a new fid 2, by one name.
const TWALK: &[u8] = b"\x16\0\0\0\x6e\x02\0\x01\0\0\0\x02\0\0\0\x01\0\x03\0log";

/// Tag 3: fid 2, to write (1) and to append (0x400): each write then lands after what is there.
const TLOPEN: &[u8] = b"\x0f\0\0\0\x0c\x03\0\x02\0\0\0\x01\x04\0\0";

/// Tag 9: one byte, `x`, to fid 2 at 0.
pub const TWRITE: &[u8; 24] = b"\x18\0\0\0\x76\x09\0\x02\0\0\0\0\0\0\0\0\0\0\0\x01\0\0\0x";

/// The same under a size of 48: whatever comes next is its tail.
pub const TWRITE_OF_48: &[u8; 24] = b"\x30\0\0\0\x76\x09\0\x02\0\0\0\0\0\0\0\0\0\0\0\x01\0\0\0x";
