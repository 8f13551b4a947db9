//! Records that the C library fills in or takes.

use crate::{c_char, c_int, c_long};

pub type uid_t = u32;
pub type gid_t = u32;
pub type mode_t = u32;
pub type ino64_t = u64;

/// A directory stream, known by its address alone.
#[repr(C)]
pub struct DIR {
    hidden: [u8; 0],
}

#[repr(C)]
pub struct timespec {
    pub tv_sec: i64,
    pub tv_nsec: c_long,
}

#[repr(C)]
#[derive(Clone, Copy)]
pub struct stat64 {
    pub st_dev: u64,
    pub st_ino: ino64_t,
    pub st_nlink: u64,
    pub st_mode: mode_t,
    pub st_uid: uid_t,
    pub st_gid: gid_t,
    padding: c_int,
    pub st_rdev: u64,
    pub st_size: i64,
    pub st_blksize: i64,
    pub st_blocks: i64,
    pub st_atime: i64,
    pub st_atime_nsec: i64,
    pub st_mtime: i64,
    pub st_mtime_nsec: i64,
    pub st_ctime: i64,
    pub st_ctime_nsec: i64,
    spare: [i64; 3],
}

#[repr(C)]
#[derive(Clone, Copy)]
pub struct fsid_t {
    halves: [c_int; 2],
}

#[repr(C)]
pub struct statfs64 {
    pub f_type: i64,
    pub f_bsize: i64,
    pub f_blocks: u64,
    pub f_bfree: u64,
    pub f_bavail: u64,
    pub f_files: u64,
    pub f_ffree: u64,
    pub f_fsid: fsid_t,
    pub f_namelen: i64,
    pub f_frsize: i64,
    pub f_flags: i64,
    spare: [i64; 4],
}

#[repr(C)]
pub struct dirent64 {
    pub d_ino: ino64_t,
    pub d_off: i64,
    pub d_reclen: u16,
    pub d_type: u8,
    pub d_name: [c_char; 256],
}
