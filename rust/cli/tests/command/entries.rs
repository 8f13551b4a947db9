//! What `entries` prints. The frames are put down by hand, and so are the positions.

use crate::running::*;

const HEADER: &str = "at ty version path offset type name\n";

/// A file `a"b\c`, of 29 bytes; a directory with a control byte, a delete and a letter of two bytes in
/// its name, of 28 bytes.
const FILE: &[u8] = b"\0\x01\0\0\0\x02\0\0\0\0\0\0\0\x03\0\0\0\0\0\0\0\x08\x05\0a\"b\\c";
const FOLDER: &[u8] =
    b"\x80\xff\xff\xff\xff\x04\0\0\0\0\0\0\x80\xff\0\0\0\0\0\0\0\x04\x04\0\x1f\x7f\xc3\xa9";

const LINES: &str = "\
0 0 1 2 3 8 \"a\\\"b\\\\c\"
29 128 4294967295 9223372036854775812 255 4 \"\\x1f\\x7f\u{e9}\"
";

/// An Rreaddir of these entries.
fn rreaddir(data: &[&[u8]]) -> Vec<u8> {
    let data = data.concat();
    let size = (11 + data.len() as u32).to_le_bytes();
    let count = (data.len() as u32).to_le_bytes();
    [&size[..], b"\x29\x07\0", &count, &data].concat()
}

fn block(bytes: &[u8]) -> Ran {
    run_on(&["entries", "--block", "-"], bytes)
}

#[test]
fn a_block_is_listed() {
    let ran = block(&[FILE, FOLDER].concat());
    assert_eq!(ran.out, format!("{HEADER}{LINES}end 57 2\n"));
    assert_eq!(ran.err, "2 entries, 57 bytes, 0 stops\n");
    assert_eq!(ran.status, Some(0));
    let none = block(b"");
    assert_eq!(
        (&*none.out, none.status),
        (&*format!("{HEADER}end 0 0\n"), Some(0))
    );
    assert_eq!(none.err, "0 entries, 0 bytes, 0 stops\n");
}

/// Entries before the cut stand, and the one that is cut is refused at its own position.
#[test]
fn a_block_that_is_cut_stops_at_the_entry() {
    let both = [FILE, FOLDER].concat();
    let (first, _) = LINES.split_once('\n').expect("two lines");
    for cut in 1..29 {
        let ran = block(&both[..cut]);
        assert_eq!(
            (&*ran.out, ran.status),
            (&*format!("{HEADER}stop 0 1\n"), Some(1))
        );
    }
    for cut in 30..57 {
        let ran = block(&both[..cut]);
        assert_eq!(ran.out, format!("{HEADER}{first}\nstop 29 1\n"));
        assert_eq!(ran.err, format!("1 entry, {cut} bytes, 1 stop\n"));
        assert_eq!(ran.status, Some(1));
    }
}

#[test]
fn a_name_that_breaks_stops_it() {
    for (byte, refusal) in [(0xff, 5), (0, 6)] {
        let mut folder = FOLDER.to_vec();
        folder[24] = byte;
        let ran = block(&[FILE, &folder, FILE].concat());
        assert_eq!(ran.out.lines().last(), Some(&*format!("stop 29 {refusal}")));
        assert_eq!(ran.status, Some(1));
    }
}

/// Each Rreaddir has its frame's position, and other frames have no line.
#[test]
fn the_blocks_of_a_recording_are_listed() {
    let first = rreaddir(&[FILE, FOLDER]);
    let cut = rreaddir(&[FILE, &FOLDER[..27]]);
    let recording = [
        &first,
        b"\x07\0\0\0\x6d\x01\0".as_slice(),
        &rreaddir(&[]),
        &cut,
    ]
    .concat();
    let ran = run_on(&["entries", "-"], &recording);
    let (line, _) = LINES.split_once('\n').expect("two lines");
    let (second, third) = (first.len() + 7, first.len() + 18);
    let (end, frames) = (recording.len(), 4);
    assert_eq!(
        ran.out,
        format!(
            "{HEADER}frame 0\n{LINES}end 57 2\nframe {second}\nend 0 0\n\
             frame {third}\n{line}\nstop 29 1\nend {end} {frames}\n"
        )
    );
    assert!(
        ran.err.contains("3 entries, 1 stopped block\n"),
        "{}",
        ran.err
    );
    assert_eq!(ran.status, Some(1));
    // A refused frame, and a stop of the recording, are told as in `list`.
    let short = run_on(&["entries", "-"], &recording[..recording.len() - 1]);
    assert_eq!(short.out.lines().last(), Some(&*format!("stop {third} 12")));
    assert_eq!(short.status, Some(1));
}

/// The recorded session, beside the same blocks cut out of it.
#[test]
fn the_session_has_its_entries() {
    let ran = run_on(&["entries", "-"], SESSION);
    assert_eq!(ran.status, Some(0));
    let mut lines = ran.out.lines().skip(1).peekable();
    let mut blocks = 0;
    while let Some(frame) = lines.next_if(|line| line.starts_with("frame ")) {
        let at: usize = frame[6..].parse().expect("a position");
        let size = SESSION[at..].first_chunk().expect("a size");
        let frame = &SESSION[at..][..u32::from_le_bytes(*size) as usize];
        let alone = block(&frame[11..]).out;
        for line in alone.lines().skip(1) {
            assert_eq!(lines.next(), Some(line), "of the frame at {at}");
        }
        blocks += 1;
    }
    assert_eq!(lines.next(), Some("end 9636 224"));
    assert_eq!((lines.next(), blocks > 0), (None, true));
}

#[test]
fn several_blocks_have_headings() {
    let folder = Folder::new();
    let (a, b) = (folder.file("a", FILE), folder.file("b", b""));
    let ran = run(&["entries", "--block", &a, &b]);
    let (line, _) = LINES.split_once('\n').expect("two lines");
    assert_eq!(
        ran.out,
        format!("==> {a} <==\n{HEADER}{line}\nend 29 1\n\n==> {b} <==\n{HEADER}end 0 0\n")
    );
    let missing = folder.no_file("c");
    let wanted = folder.no_file("wanted");
    let ran = run(&["entries", "--block", "-o", &wanted, &a, &missing]);
    assert_eq!((ran.status, &*ran.out), (Some(2), ""));
    assert!(!std::path::Path::new(&wanted).exists());
    let ran = run(&["entries", "--block"]);
    assert_eq!(ran.status, Some(2));
    assert!(ran.err.contains("name a file"), "{}", ran.err);
}
