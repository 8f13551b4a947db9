//! Functions of the C library, which every Rust program here is linked with already.

use crate::DIR;
use crate::{c_char, c_int, c_long, dirent64, gid_t, mode_t, timespec, uid_t};

extern "C" {
    pub fn openat64(dir: c_int, path: *const c_char, flags: c_int, ...) -> c_int;
    pub fn close(fd: c_int) -> c_int;
    pub fn fcntl(fd: c_int, command: c_int, ...) -> c_int;

    pub fn readlinkat(dir: c_int, path: *const c_char, out: *mut c_char, room: usize) -> isize;

    pub fn fchmodat(dir: c_int, path: *const c_char, mode: mode_t, flags: c_int) -> c_int;
    pub fn fchownat(
        dir: c_int,
        path: *const c_char,
        owner: uid_t,
        group: gid_t,
        flags: c_int,
    ) -> c_int;
    pub fn utimensat(
        dir: c_int,
        path: *const c_char,
        times: *const timespec,
        flags: c_int,
    ) -> c_int;

    pub fn mkdirat(dir: c_int, path: *const c_char, mode: mode_t) -> c_int;
    pub fn unlinkat(dir: c_int, path: *const c_char, flags: c_int) -> c_int;
    pub fn renameat(
        old_dir: c_int,
        old: *const c_char,
        new_dir: c_int,
        new: *const c_char,
    ) -> c_int;
    pub fn linkat(
        old_dir: c_int,
        old: *const c_char,
        new_dir: c_int,
        new: *const c_char,
        flags: c_int,
    ) -> c_int;

    pub fn fdopendir(fd: c_int) -> *mut DIR;
    pub fn readdir64(dir: *mut DIR) -> *mut dirent64;
    pub fn seekdir(dir: *mut DIR, place: c_long);
    pub fn closedir(dir: *mut DIR) -> c_int;
}
