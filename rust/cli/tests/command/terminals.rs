//! What a terminal gets. `script`, of Debian's package bsdutils, makes one; without it nothing is
//! tried.

use std::io::Write;
use std::process::{Command, Stdio};
use std::thread;
use std::time::Duration;

use crate::running::*;

/// What a terminal shows of the command with these words, and these variables set.
fn shown(words: &str, variables: &[(&str, &str)]) -> Option<String> {
    let line = format!("{} {words}", env!("CARGO_BIN_EXE_sheafsledge"));
    let mut script = Command::new("script");
    script.args(["-q", "-e", "-c", &line, "/dev/null"]);
    script.env_remove("NO_COLOR").env("TERM", "xterm");
    script.envs(variables.iter().copied()).stdin(Stdio::null());
    match script.output() {
        Ok(output) => Some(String::from_utf8_lossy(&output.stdout).replace("\r\n", "\n")),
        Err(_) => {
            eprintln!("`script` is not installed, and no terminal is tried");
            None
        }
    }
}

#[test]
fn tails_and_refusals_stand_out_on_a_terminal_alone() {
    let folder = Folder::new();
    let flush = b"\x09\0\0\0\x6c\x01\0\x02\0";
    let file = folder.file("a", &[flush, TAIL, UNKNOWN, &[1]].concat());
    let Some(plain) = shown(&format!("list {file}"), &[("NO_COLOR", "1")]) else {
        return;
    };
    assert!(!plain.contains('\x1b'), "{plain:?}");
    let dumb = shown(&format!("list {file}"), &[("TERM", "dumb")]);
    assert_eq!(dumb, Some(plain.clone()));
    let painted = shown(&format!("list {file}"), &[]).expect("as before");
    for owed in [
        "\n0 9 108 1 0 0\n",
        "\n\x1b[33m9 11 108 1 0 2\x1b[0m\n",
        "\n\x1b[31m20 7 106 5 3 -\x1b[0m\n",
        "\n\x1b[31mstop 27 12\x1b[0m\n",
        ", \x1b[33m1 tail\x1b[0m, \x1b[31m1 refusal\x1b[0m, \x1b[31m1 stop\x1b[0m\n",
    ] {
        assert!(painted.contains(owed), "{owed:?} in {painted:?}");
    }
    let bare = painted
        .replace("\x1b[33m", "")
        .replace("\x1b[31m", "")
        .replace("\x1b[0m", "");
    assert_eq!(bare, plain);
    // The listing goes elsewhere, and the summary to the terminal.
    let out = folder.no_file("out");
    let painted = shown(&format!("list {file} -o {out}"), &[]).expect("as before");
    assert!(
        painted.starts_with("3 frames, 27 bytes, \x1b[33m1 tail"),
        "{painted:?}"
    );
    let listing = std::fs::read_to_string(&out).expect("it is there");
    assert!(listing.starts_with("at size type tag answer tail\n0 9 108 1 0 0\n9 11 108 1 0 2\n"));
    let objects = shown(&format!("list --json {file} 2>/dev/null"), &[]).expect("as before");
    assert!(!objects.contains('\x1b'), "{objects:?}");
}

#[test]
fn of_a_broken_string_the_byte_stands_out() {
    let folder = Folder::new();
    let file = folder.file("a", b"\x0a\0\0\0\x17\x05\0\x01\0\xff");
    let Some(painted) = shown(&format!("where {file}"), &[]) else {
        return;
    };
    for owed in [
        "\n0 5 9 .. 00 00 00 17 05 00 01 00 \x1b[31m[ff]\x1b[0m\nend 10 1\n",
        ", 0 stops, \x1b[31m1 broken string\x1b[0m\n",
    ] {
        assert!(painted.contains(owed), "{owed:?} in {painted:?}");
    }
}

#[test]
fn parts_that_are_no_fields_stand_out() {
    let folder = Folder::new();
    let file = folder.file("a", &[TAIL, UNKNOWN, &[1]].concat());
    let Some(painted) = shown(&format!("fields {file}"), &[]) else {
        return;
    };
    for owed in [
        "\n0 108 oldtag 7 2 2\n\x1b[33m0 108 tail 9 2 2 bytes\x1b[0m\n",
        "\n\x1b[31m11 106 refused 18 0 3 the message type is unknown\x1b[0m\n",
        "\n\x1b[31m18 - rest 18 1 12 the stretch of frames is cut\x1b[0m\n",
    ] {
        assert!(painted.contains(owed), "{owed:?} in {painted:?}");
    }
}

/// The trailers are of 18 bytes and 2 frames, the last at 11.
#[test]
fn what_a_session_refuses_stands_out() {
    let folder = Folder::new();
    let trailer = b"\x12\0\0\0\x02\0\0\0\x0b\0\0\0";
    let file = folder.file("a", &[TAIL, UNKNOWN, trailer].concat());
    let Some(painted) = shown(&format!("paths {file}"), &[]) else {
        return;
    };
    let lines =
        "\n\x1b[33m0 11 108 1 0 2 - -\x1b[0m\n\x1b[31m11 7 106 5 3 - - -\x1b[0m\nend 18 2\n";
    assert!(painted.contains(lines), "{painted:?}");
    let bare = folder.file("bare", TAIL);
    let painted = shown(&format!("paths {bare}"), &[]).expect("as before");
    assert!(
        painted.starts_with("\x1b[31mstop 0 19\x1b[0m\nsheafsledge: "),
        "{painted:?}"
    );
}

/// A pipe that is slow, so that the line comes however fast the machine is.
#[test]
fn a_long_wait_has_a_line_that_is_cleared() {
    let line = format!("{} list - >/dev/null", env!("CARGO_BIN_EXE_sheafsledge"));
    let folder = Folder::new();
    let fifo = folder.no_file("fifo");
    let made = Command::new("mkfifo").arg(&fifo).status();
    if !made.is_ok_and(|status| status.success()) {
        return eprintln!("there is no `mkfifo`, and no pipe is tried");
    }
    let mut script = Command::new("script");
    script.args(["-q", "-e", "-c", &format!("{line} <{fifo}"), "/dev/null"]);
    script
        .env("TERM", "xterm")
        .stdin(Stdio::null())
        .stdout(Stdio::piped());
    let Ok(child) = script.spawn() else {
        return eprintln!("`script` is not installed, and no terminal is tried");
    };
    let mut pipe = std::fs::File::options()
        .write(true)
        .open(&fifo)
        .expect("a reader");
    for _ in 0..10 {
        pipe.write_all(&SESSION.repeat(100)).expect("a reader");
        thread::sleep(Duration::from_millis(120));
    }
    drop(pipe);
    let output = child.wait_with_output().expect("it ends");
    let text = String::from_utf8_lossy(&output.stdout);
    assert!(text.contains("\r\x1b[Kstandard input: "), "{text:?}");
    let end = "MB\r\x1b[K224000 frames, 9636000 bytes, 0 tails, 0 refusals, 0 stops\r\n";
    assert!(text.ends_with(end), "{text:?}");
}
