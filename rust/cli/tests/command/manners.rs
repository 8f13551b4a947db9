//! What the command prints, and how it ends.

use std::ffi::OsStr;
use std::fs::{self, File};
use std::io::Read;
use std::os::unix::ffi::OsStrExt;
use std::process::Stdio;

use crate::running::*;

const HEADER: &str = "at size type tag answer tail\n";

fn ran(status: i32, out: &str, err: &str) -> Ran {
    let (status, out, err) = (Some(status), out.into(), err.into());
    Ran { status, out, err }
}

#[test]
fn a_session_is_listed_as_the_seller_lists_it() {
    let said = "224 frames, 9636 bytes, 0 tails, 0 refusals, 0 stops\n";
    let owed = ran(0, &sellers_listing(), said);
    assert_eq!(run_on(&["list", "-"], SESSION), owed);
    let folder = Folder::new();
    let file = folder.file("session.bin", SESSION);
    assert_eq!(run(&["list", &file]), owed);
    assert_eq!(run(&["list", "--", &file]), owed);
}

#[test]
fn tails_refusals_and_stops_are_listed_and_counted() {
    let bytes = [TAIL, UNKNOWN, UNKNOWN, &[9, 0, 0]].concat();
    let said = "3 frames, 25 bytes, 1 tail, 2 refusals, 1 stop\n  \
                2 refused with 3: the message type is unknown\n  \
                1 stopped with 12: the stretch of frames is cut\n";
    let lines = "0 11 108 1 0 2\n11 7 106 5 3 -\n18 7 106 5 3 -\nstop 25 12\n";
    let owed = ran(1, &format!("{HEADER}{lines}"), said);
    assert_eq!(run_on(&["list", "-"], &bytes), owed);

    let named = "at size type tag answer tail name sentence\n\
                 0 11 108 1 0 2 Tflush\n\
                 11 7 106 5 3 - ? the message type is unknown\n\
                 18 7 106 5 3 - ? the message type is unknown\n\
                 stop 25 12 the stretch of frames is cut\n";
    assert_eq!(
        run_on(&["list", "-", "--names"], &bytes),
        ran(1, named, said)
    );

    let row = |at| {
        format!(
            "{{\"file\":\"-\",\"at\":{at},\"size\":7,\"type\":106,\"tag\":5,\"answer\":3,\
             \"tail\":null,\"name\":null,\"sentence\":\"the message type is unknown\"}}\n"
        )
    };
    let objects = format!(
        "{{\"file\":\"-\",\"at\":0,\"size\":11,\"type\":108,\"tag\":1,\"answer\":0,\"tail\":2,\
         \"name\":\"Tflush\"}}\n{}{}{{\"file\":\"-\",\"stop\":25,\"answer\":12,\
         \"sentence\":\"the stretch of frames is cut\",\"frames\":3}}\n",
        row(11),
        row(18)
    );
    assert_eq!(
        run_on(&["list", "--json", "-"], &bytes),
        ran(1, &objects, said)
    );
}

#[test]
fn each_fault_alone_is_status_1() {
    for (bytes, line) in [
        (TAIL, "1 tail, 0 refusals, 0 stops\n"),
        (UNKNOWN, "0 tails, 1 refusal, 0 stops\n"),
        (&[6, 0, 0, 0], "0 tails, 0 refusals, 1 stop\n"),
        (&[9], "0 tails, 0 refusals, 1 stop\n"),
    ] {
        let ran = run_on(&["list", "-"], bytes);
        assert_eq!(ran.status, Some(1), "{ran:?}");
        assert!(ran.err.contains(line), "{ran:?}");
    }
    let nothing = "0 frames, 0 bytes, 0 tails, 0 refusals, 0 stops\n";
    let owed = ran(0, &format!("{HEADER}end 0 0\n"), nothing);
    assert_eq!(run(&["list", "-"]), owed);
    let owed = ran(
        0,
        "{\"file\":\"/dev/null\",\"end\":0,\"frames\":0}\n",
        nothing,
    );
    assert_eq!(run(&["list", "--json", "/dev/null"]), owed);
}

#[test]
fn several_files_have_headings() {
    let folder = Folder::new();
    let (one, two) = (folder.file("one", &TAIL[..0]), folder.file("two\n", TAIL));
    let missing = folder.no_file("missing");
    let told = run_on(&["list", &one, &missing, "-", &two], UNKNOWN);
    let name = folder.path().display();
    let out = format!(
        "==> {name}/one <==\n{HEADER}end 0 0\n\n\
         ==> standard input <==\n{HEADER}0 7 106 5 3 -\nend 7 1\n\n\
         ==> {name}/two\\n <==\n{HEADER}0 11 108 1 0 2\nend 11 1\n"
    );
    let err = format!(
        "sheafsledge: {name}/missing: No such file or directory\n\
         2 frames, 18 bytes, 1 tail, 1 refusal, 0 stops\n  \
         1 refused with 3: the message type is unknown\n"
    );
    assert_eq!(told, ran(2, &out, &err));
}

#[test]
fn bad_usage_is_one_line() {
    for (words, line) in [
        (&[][..], "name a command; try 'sheafsledge --help'"),
        (
            &["frob"],
            "unknown command 'frob'; try 'sheafsledge --help'",
        ),
        (
            &["--json"],
            "unknown option '--json'; try 'sheafsledge --help'",
        ),
        (
            &["list"],
            "name a file, or '-' for standard input; try 'sheafsledge list --help'",
        ),
        (
            &["list", "--nmaes", "x"],
            "unknown option '--nmaes'; try 'sheafsledge list --help'",
        ),
        (
            &["list", "x", "-o"],
            "option '-o' needs a FILE; try 'sheafsledge list --help'",
        ),
        (
            &["list", "-", "-"],
            "standard input, '-', is named twice; try 'sheafsledge list --help'",
        ),
    ] {
        assert_eq!(run(words), ran(2, "", &format!("sheafsledge: {line}\n")));
    }
}

#[test]
fn a_file_that_cannot_be_read_is_named() {
    let folder = Folder::new();
    for (file, why) in [
        (folder.no_file("no.bin"), "No such file or directory"),
        (folder.path().display().to_string(), "Is a directory"),
        (folder.file("f", b"") + "/g", "Not a directory"),
        // It opens, and its first byte can't be read.
        ("/proc/self/mem".into(), "Input/output error"),
    ] {
        let owed = ran(2, "", &format!("sheafsledge: {file}: {why}\n"));
        assert_eq!(run(&["list", &file]), owed);
        assert_eq!(
            run(&["list", "--json", &file, "-o", &folder.no_file("out")]),
            owed
        );
    }
    assert_eq!(folder.names(), ["f"]);
    // A folder as standard input.
    let here = File::open(folder.path()).expect("a folder");
    let output = command().args(["list", "-"]).stdin(here).output();
    let told = Ran::of(output.expect("it starts"));
    let line = "sheafsledge: standard input: Is a directory\n";
    assert_eq!(told, ran(2, "", line));
}

#[test]
fn any_name_is_shown_in_one_line() {
    let folder = Folder::new();
    let odd = folder.path().join(OsStr::from_bytes(b"a\"\\\x1b\xff"));
    fs::write(&odd, UNKNOWN).expect("a file");
    let output = command().args(["list", "--json"]).arg(&odd).output();
    let told = Ran::of(output.expect("it starts"));
    assert_eq!(told.status, Some(1));
    let name = folder.path().display();
    let front = format!("{{\"file\":\"{name}/a\\\"\\\\\\u001b\u{fffd}\",\"at\":0");
    assert!(told.out.starts_with(&front), "{}", told.out);

    let odd = folder.path().join(OsStr::from_bytes(b"\x1b[2J\n\xff"));
    let output = command().arg("list").arg(&odd).output();
    let told = Ran::of(output.expect("it starts"));
    let line = format!("sheafsledge: {name}/\\u{{1b}}[2J\\n\u{fffd}: No such file or directory\n");
    assert!(told.err.starts_with(&line), "{}", told.err);
}

#[test]
fn a_closed_pipe_ends_it_quietly() {
    let folder = Folder::new();
    let file = folder.file("long.bin", &SESSION.repeat(300));
    let mut command = command();
    command.args(["list", &file]);
    command.stdout(Stdio::piped()).stderr(Stdio::piped());
    let mut child = command.spawn().expect("it starts");
    let mut first = [0; HEADER.len()];
    let mut pipe = child.stdout.take().expect("a pipe");
    pipe.read_exact(&mut first).expect("the header");
    assert_eq!(first, HEADER.as_bytes());
    drop(pipe);
    let told = Ran::of(child.wait_with_output().expect("it ends"));
    assert_eq!(told, ran(141, "", ""));
}

#[test]
fn a_full_output_is_named() {
    let full = File::options().write(true).open("/dev/full");
    let mut command = command();
    command
        .args(["list", "/dev/null"])
        .stdout(full.expect("a device"));
    let told = Ran::of(command.output().expect("it starts"));
    let line = "sheafsledge: standard output: No space left on device\n";
    assert_eq!(told, ran(2, "", line));
    // Standard error that can't be written is no reason to panic.
    let full = File::options().write(true).open("/dev/full");
    let mut command = self::command();
    command
        .args(["list", "/no/such"])
        .stderr(full.expect("a device"));
    let told = Ran::of(command.output().expect("it starts"));
    assert_eq!(told, ran(2, "", ""));
}

#[test]
fn versions_and_help_go_to_standard_output() {
    let version = "sheafsledge 0.1.0\nlibrary of boundary 4\n";
    assert_eq!(run(&["--version"]), ran(0, version, ""));
    assert_eq!(run(&["-V"]), ran(0, version, ""));
    for words in [
        &["--help"][..],
        &["-h"],
        &["list", "--help"],
        &["list", "x", "-h"],
        &["pairs", "--help"],
        &["fields", "--help"],
        &["seal", "--help"],
        &["paths", "--help"],
        &["join", "--help"],
        &["plan", "--help"],
        &["entries", "--help"],
        &["pcap", "--help"],
    ] {
        let told = run(words);
        assert_eq!((told.status, told.err.as_str()), (Some(0), ""));
        assert!(told.out.starts_with("Usage: sheafsledge "), "{}", told.out);
        assert!(told.out.contains("\nExample:\n  sheafsledge "));
        let longest = told.out.lines().map(|line| line.chars().count()).max();
        assert!(longest <= Some(80), "{}", told.out);
    }
}
