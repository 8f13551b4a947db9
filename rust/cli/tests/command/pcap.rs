//! What `pcap` writes, says and leaves alone. The files are put down by hand.

use std::fs;

use crate::running::*;

/// A Tflush and an Rflush.
const STRETCH: &[u8] = b"\x09\0\0\0\x6c\x01\0\x02\0\x07\0\0\0\x6d\x01\0";

const TIMES: &[u8] = b"\x01\0\0\0\x02\0\0\0\xff\xff\xff\xff\x40\x42\x0f\0";

/// The two as a capture file.
fn file() -> Vec<u8> {
    let mut file = b"\xd4\xc3\xb2\xa1\x02\0\x04\0\0\0\0\0\0\0\0\0\xff\xff\0\0\x93\0\0\0".to_vec();
    file.extend(b"\x01\0\0\0\x02\0\0\0\x09\0\0\0\x09\0\0\0");
    file.extend(&STRETCH[..9]);
    file.extend(b"\xff\xff\xff\xff\x40\x42\x0f\0\x07\0\0\0\x07\0\0\0");
    file.extend(&STRETCH[9..]);
    file
}

/// The same with its headers in the other order.
fn twin() -> Vec<u8> {
    let mut file = b"\xa1\xb2\xc3\xd4\0\x02\0\x04\0\0\0\x09\0\0\0\0\0\0\0\0\0\0\0\x93".to_vec();
    file.extend(b"\0\0\0\x01\0\0\0\x02\0\0\0\x09\0\0\0\x09");
    file.extend(&STRETCH[..9]);
    file.extend(b"\xff\xff\xff\xff\0\x0f\x42\x40\0\0\0\x07\0\0\0\x07");
    file.extend(&STRETCH[9..]);
    file
}

const MALFORMED: &str = "the capture file is malformed, or the frame does not fit one";

fn names(folder: &Folder) -> Vec<String> {
    let names = fs::read_dir(folder.path()).expect("a folder").flatten();
    let mut names: Vec<String> = names
        .map(|entry| entry.file_name().into_string().expect("text"))
        .collect();
    names.sort();
    names
}

struct Case {
    folder: Folder,
}

impl Case {
    fn new(files: &[(&str, &[u8])]) -> Self {
        let folder = Folder::new();
        for (name, bytes) in files {
            fs::write(folder.path().join(name), bytes).expect("written");
        }
        Self { folder }
    }

    fn run(&self, words: &[&str]) -> Ran {
        let mut command = command();
        command.args(words).current_dir(self.folder.path());
        Ran::of(command.output().expect("it runs"))
    }

    fn read(&self, name: &str) -> Vec<u8> {
        fs::read(self.folder.path().join(name)).expect("it is there")
    }
}

fn silent(ran: &Ran) {
    assert_eq!((ran.status, &*ran.out, &*ran.err), (Some(0), "", ""));
}

#[test]
fn import_writes_the_frames_and_the_times() {
    for bytes in [file(), twin()] {
        let case = Case::new(&[("a.pcap", &bytes)]);
        silent(&case.run(&["pcap", "import", "a.pcap", "-o", "s", "--times", "t"]));
        assert_eq!(
            (case.read("s"), case.read("t")),
            (STRETCH.into(), TIMES.into())
        );
        assert_eq!(names(&case.folder), ["a.pcap", "s", "t"]);
    }
}

#[test]
fn export_writes_the_file() {
    let long = [TIMES, &[1; 16]].concat();
    let case = Case::new(&[("s", STRETCH), ("t", TIMES), ("long", &long)]);
    for times in ["t", "long"] {
        silent(&case.run(&["pcap", "export", "s", "-o", "a.pcap", "--times", times]));
        assert_eq!(case.read("a.pcap"), file());
    }
    silent(&case.run(&["pcap", "export", "--output=b.pcap", "s"]));
    let mut owed = file();
    owed[24..32].fill(0);
    owed[49..57].fill(0);
    assert_eq!(case.read("b.pcap"), owed);
}

#[test]
fn there_and_back_again() {
    let case = Case::new(&[("s", SESSION)]);
    silent(&case.run(&["pcap", "export", "s", "-o", "a.pcap"]));
    silent(&case.run(&["pcap", "import", "a.pcap", "-o", "s2", "--times", "t"]));
    assert_eq!(case.read("s2"), SESSION);
    assert!(case.read("t").iter().all(|byte| *byte == 0));
    silent(&case.run(&["pcap", "export", "s2", "-o", "b.pcap", "--times", "t"]));
    assert_eq!(case.read("a.pcap"), case.read("b.pcap"));
}

#[test]
fn refused_no_file_is_made_or_altered() {
    let cut = &file()[..64];
    let six = [STRETCH, &[6, 0, 0, 0]].concat();
    let mut long = vec![0xff; 65536];
    long[..7].copy_from_slice(&[0, 0, 1, 0, 117, 1, 0]);
    let long = [STRETCH, &long].concat();
    let files: &[(&str, &[u8])] = &[
        ("cut", cut),
        ("six", &six),
        ("long", &long),
        ("s", STRETCH),
        ("row", &TIMES[..8]),
        ("o", b"o as it was"),
        ("t", b"t as it was"),
    ];
    let malformed = |at: usize| format!("25 at byte {at}: {MALFORMED}");
    let all = |name: &str| files.iter().any(|(there, _)| *there == name);
    for outputs in [["o", "t"], ["new-o", "new-t"]] {
        let [o, t] = outputs;
        for (words, owed) in [
            (vec!["import", "cut", "-o", o, "--times", t], malformed(49)),
            (vec!["import", "s", "-o", o, "--times", t], malformed(0)),
            (vec!["export", "cut", "-o", o], {
                "12 at byte 0: the stretch of frames is cut".into()
            }),
            (vec!["export", "six", "-o", o], {
                "13 at byte 16: a frame's size is less than 7".into()
            }),
            (vec!["export", "long", "-o", o], malformed(16)),
            (vec!["export", "s", "-o", o, "--times", "row"], {
                "24 at byte 0: the table has too few rows".into()
            }),
        ] {
            let case = Case::new(files);
            let file = words[1];
            let ran = case.run(&[&["pcap"], &words[..]].concat());
            assert_eq!((ran.status, &*ran.out), (Some(1), ""));
            assert_eq!(
                ran.err,
                format!("sheafsledge: {file}: refused with {owed}\n")
            );
            for (name, bytes) in files {
                assert_eq!(case.read(name), *bytes, "{name}");
            }
            assert!(names(&case.folder).iter().all(|name| all(name)));
        }
    }
}

#[test]
fn wrong_words_and_files_are_named() {
    let seven = &TIMES[..7];
    let case = Case::new(&[("s", STRETCH), ("seven", seven), ("a", &file())]);
    let help = "; try 'sheafsledge pcap --help'";
    for (words, owed) in [
        (
            &["pcap"][..],
            format!("name 'import' or 'export', and a file{help}"),
        ),
        (
            &["pcap", "import", "a"],
            format!("option '-o' is missing{help}"),
        ),
        (
            &["pcap", "import", "a", "-o", "x"],
            format!("option '--times' is missing{help}"),
        ),
        (
            &["pcap", "out", "a", "-o", "x"],
            format!("name 'import' or 'export' first{help}"),
        ),
        (
            &["pcap", "import", "a", "-o", "x", "--times", "x"],
            format!("'-o' and '--times' name the same file{help}"),
        ),
        (
            &["pcap", "export", "-", "-o", "x", "--times", "-"],
            format!("standard input is one file, and not two{help}"),
        ),
        (
            &["pcap", "export", "s", "-o", "x", "--times", "seven"],
            "seven: it ends inside a row of 8 bytes".into(),
        ),
    ] {
        let ran = case.run(words);
        assert_eq!((ran.status, &*ran.out), (Some(2), ""), "{words:?}");
        assert_eq!(ran.err, format!("sheafsledge: {owed}\n"));
    }
    let ran = case.run(&["pcap", "import", "a", "-o", "x", "--times", "none/t"]);
    assert_eq!(ran.status, Some(2));
    assert!(ran.err.starts_with("sheafsledge: none/t: "), "{}", ran.err);
    assert_eq!(names(&case.folder), ["a", "s", "seven"]);
}
