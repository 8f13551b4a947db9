//! How much memory a listing takes: what the fields of the longest frame need, whatever the length of
//! the file.

use std::fs::{self, File};
use std::io::Write;
use std::process::Stdio;
use std::thread;

use crate::running::*;

/// The most that it had in memory, in bytes, when it has read all of its input, which comes by a pipe.
fn peak(name: &str, write: impl FnOnce(&mut dyn Write) + Send) -> u64 {
    let mut command = command();
    command.args([name, "-"]);
    command.stdin(Stdio::piped()).stdout(Stdio::null());
    let mut child = command.stderr(Stdio::null()).spawn().expect("it starts");
    let mut pipe = child.stdin.take().expect("a pipe");
    thread::scope(|scope| scope.spawn(|| write(&mut pipe)).join()).expect("it reads");
    // The pipe holds at most 64 KiB of what was written, and is still open.
    let status = fs::read_to_string(format!("/proc/{}/status", child.id()));
    let status = status.expect("it still runs");
    let line = status.lines().find_map(|line| line.strip_prefix("VmHWM:"));
    let kb = line.expect("the peak").trim().trim_end_matches(" kB");
    drop(pipe);
    child.wait().expect("it ends");
    kb.parse::<u64>().expect("a number") * 1024
}

fn repeat(pipe: &mut dyn Write, bytes: &[u8], times: usize) {
    for _ in 0..times {
        pipe.write_all(bytes).expect("it reads");
    }
}

#[test]
fn memory_does_not_grow_with_the_file() {
    const MB: u64 = 1_000_000;
    let many = SESSION.repeat(100);
    let short = peak("list", |pipe| repeat(pipe, &many, 4));
    for (name, times) in [("list", 40), ("fields", 12)] {
        let long = peak(name, |pipe| repeat(pipe, &many, times));
        assert!(long < short + 2 * MB, "{name}: {short} {long}");
    }

    // A Twrite of one byte, and a tail of 100 MB.
    let mut front = b"\0\0\0\0\x76\x01\0\x02\0\0\0\0\0\0\0\0\0\0\0\x01\0\0\0".to_vec();
    front[..4].copy_from_slice(&100_000_023_u32.to_le_bytes());
    let tail = vec![1; 1 << 20];
    let with_tail = peak("list", |pipe| {
        pipe.write_all(&front).expect("it reads");
        repeat(pipe, &tail, 90);
    });
    assert!(with_tail < short + 2 * MB, "{short} {with_tail}");

    // The longest data in the same frame: that much has to be looked at.
    front[19..23].copy_from_slice(&33_554_432_u32.to_le_bytes());
    let with_data = peak("fields", |pipe| {
        pipe.write_all(&front).expect("it reads");
        repeat(pipe, &tail, 90);
    });
    assert!(
        with_data > short + 30 * MB,
        "the peak is seen: {short} {with_data}"
    );
    assert!(with_data < short + 38 * MB, "{short} {with_data}");
}

/// Frames of 3 GB and more in a file that takes no room on the disk.
#[test]
fn long_frames_are_passed_over() {
    let folder = Folder::new();
    let path = folder.no_file("sparse.bin");
    let size = 3_000_000_000_u32;
    let mut file = File::create(&path).expect("a file");
    file.write_all(&[&size.to_le_bytes()[..], b"\x76\x01\0"].concat())
        .expect("written");
    file.set_len(u64::from(size)).expect("a long file");
    let told = run(&["list", &path]);
    let header = "at size type tag answer tail\n";
    let listing = format!("{header}0 3000000000 118 1 0 2999999977\nend 3000000000 1\n");
    assert_eq!((told.status, told.out), (Some(1), listing));
    file.set_len(u64::from(size) - 1).expect("a shorter one");
    let told = run(&["list", &path]);
    assert_eq!(told.out, format!("{header}stop 0 12\n"));
    file.set_len(u64::from(size) + 3).expect("a longer one");
    let told = run(&["list", &path]);
    let listing = format!("{header}0 3000000000 118 1 0 2999999977\nstop 3000000000 12\n");
    assert_eq!((told.status, told.out), (Some(1), listing));
}
