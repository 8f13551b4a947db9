//! The calls that tell of files. In steady state they tell nothing that differs between two equal
//! trees, so that two servers, each on a tree of its own, can be held to the same replies.

use std::sync::atomic::{AtomicBool, Ordering};

use crate::{c_char, c_int, stat64, statfs64};

mod system {
    use crate::{c_char, c_int, stat64, statfs64};

    extern "C" {
        pub fn fstat64(fd: c_int, stat: *mut stat64) -> c_int;
        pub fn fstatat64(dir: c_int, path: *const c_char, stat: *mut stat64, flags: c_int)
            -> c_int;
        pub fn fstatfs64(fd: c_int, statfs: *mut statfs64) -> c_int;
    }
}

static STEADY: AtomicBool = AtomicBool::new(false);

/// From here on, for the whole program.
pub fn hold_steady() {
    STEADY.store(true, Ordering::Relaxed);
}

/// # Safety
/// As for the C library's function.
pub unsafe fn fstat64(fd: c_int, stat: *mut stat64) -> c_int {
    steadied(system::fstat64(fd, stat), stat, of_a_file)
}

/// # Safety
/// As for the C library's function.
pub unsafe fn fstatat64(dir: c_int, path: *const c_char, stat: *mut stat64, flags: c_int) -> c_int {
    steadied(system::fstatat64(dir, path, stat, flags), stat, of_a_file)
}

/// # Safety
/// As for the C library's function.
pub unsafe fn fstatfs64(fd: c_int, statfs: *mut statfs64) -> c_int {
    steadied(system::fstatfs64(fd, statfs), statfs, of_a_system)
}

/// What the call has filled in, where it has and where it is to be changed.
unsafe fn steadied<T>(status: c_int, told: *mut T, steady: fn(&mut T)) -> c_int {
    if status == 0 && STEADY.load(Ordering::Relaxed) {
        steady(&mut *told);
    }
    status
}

/// The number, the times and the blocks are made of what equal files have in common, so that they
/// still are of many values.
fn of_a_file(stat: &mut stat64) {
    // A directory's size is the file system's own affair.
    let is_directory = stat.st_mode & 0o170_000 == 0o040_000;
    let size = if is_directory { 4096 } else { stat.st_size };
    let common = u64::from(stat.st_mode) ^ (size as u64) << 20 ^ stat.st_nlink << 50;
    let number = |step: u64| common.wrapping_mul(0x9e37_79b9_7f4a_7c15 + 2 * step);
    let (seconds, nanoseconds) = (
        |step| (number(step) >> 32) as i64,
        |step| (number(step) % 1_000_000_000) as i64,
    );
    stat.st_size = size;
    stat.st_ino = number(0);
    stat.st_blocks = size / 512;
    (stat.st_atime, stat.st_atime_nsec) = (seconds(1), nanoseconds(2));
    (stat.st_mtime, stat.st_mtime_nsec) = (seconds(3), nanoseconds(4));
    (stat.st_ctime, stat.st_ctime_nsec) = (seconds(5), nanoseconds(6));
}

fn of_a_system(statfs: &mut statfs64) {
    statfs.f_bfree = statfs.f_blocks / 3;
    statfs.f_bavail = statfs.f_blocks / 5;
    statfs.f_ffree = statfs.f_files / 7;
}
