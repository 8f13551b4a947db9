//! `-o`: a file appears whole or not at all.

use std::fs;
use std::os::unix::fs::{symlink, PermissionsExt};
use std::process::Stdio;
use std::thread;
use std::time::Duration;

use crate::running::*;

#[test]
fn a_file_appears_whole() {
    let folder = Folder::new();
    let out = folder.no_file("out");
    for words in [["-o", &out].as_slice(), &["--output", &out]] {
        let ran = run_on(&[&["list", "-"], words].concat(), SESSION);
        assert_eq!((ran.status, ran.out.as_str()), (Some(0), ""));
        assert_eq!(
            fs::read_to_string(&out).expect("it is there"),
            sellers_listing()
        );
        assert_eq!(folder.names(), ["out"]);
    }
    // With a tail it appears too; only the status is another.
    let ran = run_on(&["list", "-", "-o", &out], TAIL);
    assert_eq!(ran.status, Some(1));
    let listing = "at size type tag answer tail\n0 11 108 1 0 2\nend 11 1\n";
    assert_eq!(fs::read_to_string(&out).expect("it is there"), listing);
    assert_eq!(run_on(&["list", "-", "-o", "-"], TAIL).out, listing);
}

#[test]
fn an_old_file_is_replaced_and_lends_its_permissions() {
    let folder = Folder::new();
    let old = folder.file("old", b"old");
    fs::set_permissions(&old, fs::Permissions::from_mode(0o640)).expect("permissions");
    let link = folder.no_file("link");
    symlink("old", &link).expect("a link");
    let ran = run_on(&["list", "-", "-o", &link], b"");
    assert_eq!(ran.status, Some(0));
    let text = fs::read_to_string(&old).expect("it is there");
    assert_eq!(text, "at size type tag answer tail\nend 0 0\n");
    let mode = fs::metadata(&old)
        .expect("it is there")
        .permissions()
        .mode();
    assert_eq!(mode & 0o777, 0o640);
    assert!(fs::symlink_metadata(&link).expect("a link").is_symlink());
    assert_eq!(folder.names(), ["link", "old"]);
}

#[test]
fn a_recording_may_be_replaced_by_its_listing() {
    let folder = Folder::new();
    let file = folder.file("session", SESSION);
    assert_eq!(run(&["list", &file, "-o", &file]).status, Some(0));
    assert_eq!(
        fs::read_to_string(&file).expect("it is there"),
        sellers_listing()
    );
}

#[test]
fn nothing_appears_where_a_file_cannot_be_read() {
    let folder = Folder::new();
    let (out, missing) = (folder.file("out", b"old"), folder.no_file("missing"));
    let ran = run_on(&["list", "-", &missing, "-o", &out], TAIL);
    let err = format!(
        "sheafsledge: {missing}: No such file or directory\n\
         sheafsledge: {out}: not written, since a file cannot be read\n\
         1 frame, 11 bytes, 1 tail, 0 refusals, 0 stops\n"
    );
    assert_eq!((ran.status, ran.err), (Some(2), err));
    assert_eq!(fs::read(&out).expect("it is there"), b"old");
    assert_eq!(folder.names(), ["out"]);
}

#[test]
fn an_output_that_cannot_be_written_is_named() {
    let folder = Folder::new();
    let there = folder.path().display().to_string();
    for (out, why) in [
        (folder.no_file("no/such/out"), "No such file or directory"),
        (folder.file("f", b"") + "/out", "Not a directory"),
        (there.clone(), "Is a directory"),
        (there + "/new/", "Is a directory"),
        ("/dev/full".into(), "No space left on device"),
    ] {
        let ran = run_on(&["list", "-", "-o", &out], SESSION);
        let line = format!("sheafsledge: {out}: {why}\n");
        assert_eq!(
            (ran.status, ran.out, ran.err),
            (Some(2), String::new(), line)
        );
    }
    assert_eq!(folder.names(), ["f"]);
}

#[test]
fn devices_stay_what_they_are() {
    let ran = run_on(&["list", "-", "-o", "/dev/null"], SESSION);
    assert_eq!(ran.status, Some(0));
    let kind = fs::metadata("/dev/null").expect("it is there").file_type();
    assert!(!kind.is_file());
}

/// Killed in the middle: the old file is as it was. What was written so far stays under another name,
/// since nobody is left to remove it.
#[test]
fn interrupted_it_leaves_the_old_file() {
    let folder = Folder::new();
    let out = folder.file("out", b"old");
    let mut command = command();
    command
        .args(["list", "-", "-o", &out])
        .stdin(Stdio::piped());
    let mut child = command.stderr(Stdio::null()).spawn().expect("it starts");
    while folder.names().len() == 1 {
        thread::sleep(Duration::from_millis(5));
    }
    child.kill().expect("it runs");
    child.wait().expect("it ends");
    assert_eq!(fs::read(&out).expect("it is there"), b"old");
    let names = folder.names();
    assert_eq!(names.len(), 2);
    assert!(names[0].starts_with(".sheafsledge-") && names[0].ends_with(".part"));
}
