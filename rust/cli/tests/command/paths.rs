//! `paths`: which file each frame is about. Frames, lines and trailers are put down by hand.

use std::fs;

use crate::running::*;

const HEADER: &str = "at size type tag answer tail fid path\n";
const NO_TRAILER: &str = "the recording has no trailer, or not that of its frames";

fn frame(ty: u8, tag: u8, body: &[u8]) -> Vec<u8> {
    let size = (7 + body.len()) as u32;
    [&size.to_le_bytes()[..], &[ty, tag, 0], body].concat()
}

/// A Tattach of fid 0 and its Rattach, by tag 1: 23 bytes and 20.
fn attached() -> [Vec<u8>; 2] {
    let body = [&[0, 0, 0, 0, 255, 255, 255, 255][..], &[0; 8]].concat();
    [frame(104, 1, &body), frame(105, 1, &[0; 13])]
}

/// A Twalk by that tag, 17 bytes and each name with 2 more.
fn walk(tag: u8, fid: u8, newfid: u8, names: &[&str]) -> Vec<u8> {
    let mut body = vec![fid, 0, 0, 0, newfid, 0, 0, 0, names.len() as u8, 0];
    for name in names {
        body.extend_from_slice(&(name.len() as u16).to_le_bytes());
        body.extend_from_slice(name.as_bytes());
    }
    frame(110, tag, &body)
}

/// An Rwalk by that tag, 9 bytes and 13 a qid.
fn rwalk(tag: u8, qids: u8) -> Vec<u8> {
    let room = vec![0; 13 * usize::from(qids)];
    frame(111, tag, &[&[qids, 0][..], &room].concat())
}

fn sealed(frames: &[Vec<u8>]) -> Vec<u8> {
    let mut file = frames.concat();
    let last = frames.last().map_or(0, |last| file.len() - last.len());
    for number in [file.len(), frames.len(), last] {
        file.extend_from_slice(&(number as u32).to_le_bytes());
    }
    file
}

/// A guest that walks, makes, looks at an attribute and clunks.
fn guest() -> Vec<Vec<u8>> {
    let [attach, rattach] = attached();
    vec![
        frame(100, 255, b"\0\x20\0\0\x08\09P2000.L"),
        frame(101, 255, b"\0\x20\0\0\x08\09P2000.L"),
        attach,
        rattach,
        walk(1, 0, 1, &["dcim", "a.jpg"]),
        rwalk(1, 2),
        frame(14, 1, b"\x01\0\0\0\x02\0..\0\0\0\0\0\0\0\0\0\0\0\0"),
        frame(15, 1, &[0; 17]),
        frame(30, 1, b"\x01\0\0\0\x05\0\0\0\x01\0x"),
        frame(31, 1, &[0; 8]),
        walk(1, 0, 2, &["a", "b"]),
        rwalk(1, 1),
        frame(108, 2, &[1, 0]),
        frame(109, 2, &[]),
        frame(120, 1, &[1, 0, 0, 0]),
        frame(121, 1, &[]),
    ]
}

/// Its listing.
const GUEST: &str = "\
at size type tag answer tail fid path
0 21 100 255 0 0 - -
21 21 101 255 0 0 - -
42 23 104 1 0 0 0 -
65 20 105 1 0 0 0 \"\"
85 30 110 1 0 0 0 \"\"
115 35 111 1 0 0 1 \"/dcim/a.jpg\"
150 27 14 1 0 0 1 \"/dcim/a.jpg\"
177 24 15 1 0 0 1 \"/dcim/a.jpg/..\"
201 18 30 1 0 0 1 \"/dcim/a.jpg/..\"
219 15 31 1 0 0 5 \"/dcim/a.jpg/..\"
234 23 110 1 0 0 0 \"\"
257 22 111 1 0 0 - -
279 9 108 2 0 0 - -
288 7 109 2 0 0 - -
295 11 120 1 0 0 1 \"/dcim/a.jpg/..\"
306 7 121 1 0 0 - -
end 313 16
";

#[test]
fn each_frame_has_its_fid_and_its_path() {
    let frames = guest();
    let folder = Folder::new();
    let file = folder.file("f", &sealed(&frames));
    let said = "16 frames, 313 bytes, 0 tails, 0 refusals, 0 stops\n";
    let owed = Ran {
        status: Some(0),
        out: GUEST.into(),
        err: said.into(),
    };
    assert_eq!(run(&["paths", &file]), owed);
    assert_eq!(run_on(&["paths", "-"], &sealed(&frames)), owed);
    let out = folder.no_file("out");
    let ran = run(&["paths", &file, "-o", &out]);
    assert_eq!((ran.status, &*ran.out, &*ran.err), (Some(0), "", said));
    assert_eq!(fs::read_to_string(&out).expect("it is there"), GUEST);
}

#[test]
fn what_the_session_refuses_is_told_and_counted() {
    let [attach, rattach] = attached();
    let frames = [
        frame(121, 1, &[]),
        frame(120, 1, &[9, 0, 0, 0]),
        frame(108, 1, &[2, 0, 0xaa]),
        frame(108, 1, &[2, 0, 0xaa]),
        frame(106, 1, &[]),
        frame(109, 1, &[]),
        attach.clone(),
        rattach.clone(),
        attach,
        rattach,
    ];
    let lines = "\
0 7 121 1 21 - - -
7 11 120 1 23 - - -
18 10 108 1 0 1 - -
28 10 108 1 20 - - -
38 7 106 1 3 - - -
45 7 109 1 0 0 - -
52 23 104 1 0 0 0 -
75 20 105 1 0 0 0 \"\"
95 23 104 1 22 - - -
118 20 105 1 21 - - -
end 138 10
";
    let said = "\
10 frames, 138 bytes, 1 tail, 6 refusals, 0 stops
  1 refused with 3: the message type is unknown
  1 refused with 20: the request's tag is that of an open request
  2 refused with 21: the reply answers no open request
  1 refused with 22: a fid that has to be new is in use
  1 refused with 23: the fid is unknown
";
    let ran = run_on(&["paths", "-"], &sealed(&frames));
    assert_eq!(ran.out, format!("{HEADER}{lines}"));
    assert_eq!((ran.status, &*ran.err), (Some(1), said));
}

/// Each alone, as for `list`.
#[test]
fn a_tail_or_a_refusal_is_status_1() {
    for (frame, answer) in [
        (frame(108, 1, &[2, 0]), Some(0)),
        (frame(108, 1, &[2, 0, 7]), Some(1)),
        (frame(109, 1, &[]), Some(1)),
    ] {
        let ran = run_on(&["paths", "-"], &sealed(&[frame]));
        assert_eq!(ran.status, answer, "{ran:?}");
    }
}

#[test]
fn a_name_is_one_word_that_no_terminal_obeys() {
    for (name, owed) in [
        ("a b", r#""/a b""#),
        ("a\"b\\c", r#""/a\"b\\c""#),
        ("\n\r\t", r#""/\x0a\x0d\x09""#),
        ("\u{1b}[2J\u{7f}", r#""/\x1b[2J\x7f""#),
        ("\u{1}\u{1f} ", r#""/\x01\x1f ""#),
        ("höhe/😀~", r#""/höhe/😀~""#),
        (".", r#""/.""#),
        ("", r#""/""#),
        ("..", r#""""#),
    ] {
        let [attach, rattach] = attached();
        let frames = [attach, rattach, walk(1, 0, 1, &[name]), rwalk(1, 1)];
        let ran = run_on(&["paths", "-"], &sealed(&frames));
        let (at, end) = (62 + name.len(), 84 + name.len());
        let lines = format!("\n{at} 22 111 1 0 0 1 {owed}\nend {end} 4\n");
        assert!(ran.out.ends_with(&lines), "{ran:?}\n{lines}");
        assert_eq!(ran.status, Some(0));
    }
}

#[test]
fn a_path_may_be_long() {
    let name = "n".repeat(65_535);
    let [attach, rattach] = attached();
    let walked = [walk(1, 0, 0, &[name.as_str(); 3]), rwalk(1, 3)];
    let frames = [&[attach, rattach][..], &walked, &walked].concat();
    let ran = run_on(&["paths", "-"], &sealed(&frames));
    let line = ran.out.lines().rev().nth(1).expect("the last frame");
    let owed = format!(" 48 111 1 0 0 0 \"{}\"", format!("/{name}").repeat(6));
    assert!(line.ends_with(&owed), "{}", &line[..60]);
    assert_eq!(ran.status, Some(0));
}

/// Without the two columns, sessions one after the other are listed as the seller lists one: all is
/// accepted, and each begins with a Tversion. Four lines are put down from the frames: fid 0 is attached,
/// walked to fid 1 by `d1`, and that to fid 2 by `f27`.
#[test]
fn sessions_of_any_length_are_followed() {
    let mut file = SESSION.repeat(20);
    for number in [192_720_u32, 4480, 192_713] {
        file.extend_from_slice(&number.to_le_bytes());
    }
    let ran = run_on(&["paths", "-"], &file);
    assert_eq!(ran.status, Some(0), "{}", ran.err);
    let seller = sellers_listing();
    let mut owed: Vec<&str> = seller.lines().skip(1).collect();
    owed.pop();
    let lines: Vec<&str> = ran.out.lines().skip(1).collect();
    assert_eq!(lines.last(), Some(&"end 192720 4480"));
    for (k, line) in lines[..4480].iter().enumerate() {
        let words: Vec<&str> = line.splitn(8, ' ').collect();
        let (at, rest) = owed[k % 224].split_once(' ').expect("a position");
        let at = at.parse::<usize>().expect("a number") + k / 224 * 9636;
        assert_eq!(words[..6].join(" "), format!("{at} {rest}"));
    }
    for (k, owed) in [
        (5, "131 20 105 0 0 0 0 \"\""),
        (7, "172 22 111 0 0 0 1 \"/d1\""),
        (13 + 2, "1390 22 111 0 0 0 2 \"/d1/f27\""),
        (224 + 7, "9808 22 111 0 0 0 1 \"/d1\""),
    ] {
        assert_eq!(lines[k], owed);
    }
}

#[test]
fn without_its_trailer_a_recording_is_refused_with_19() {
    let file = sealed(&guest());
    let folder = Folder::new();
    let hint = "; 'sheafsledge seal' makes one";
    let altered = |at: usize| {
        let mut file = file.clone();
        file[at] ^= 1;
        file
    };
    for (bytes, hint) in [
        (guest().concat(), hint),
        (vec![], hint),
        (SESSION.into(), hint),
        (file[..file.len() - 1].into(), ""),
        (file[..300].into(), ""),
        (vec![0; 11], ""),
        (vec![0; 13], ""),
        ([&file[..], &[0]].concat(), ""),
        // Its length, how many frames, and where the last is.
        (altered(313), ""),
        (altered(317), ""),
        (altered(321), ""),
        // The size of the first frame.
        (altered(0), ""),
    ] {
        let name = folder.file("f", &bytes);
        let ran = run(&["paths", &name]);
        assert_eq!((ran.status, &*ran.out), (Some(1), "stop 0 19\n"));
        let said = format!(
            "sheafsledge: {name}: refused with 19: {NO_TRAILER}{hint}\n\
             0 frames, 0 bytes, 0 tails, 0 refusals, 1 stop\n  \
             1 stopped with 19: {NO_TRAILER}\n"
        );
        assert_eq!(ran.err, said);
    }
    let nothing = run_on(&["paths", "-"], &[0; 12]);
    assert_eq!(nothing.status, Some(0));
    assert_eq!(nothing.out, format!("{HEADER}end 0 0\n"));
}

#[test]
fn each_of_several_files_is_a_session_of_its_own() {
    let [attach, rattach] = attached();
    let frames = [attach, rattach];
    let folder = Folder::new();
    let one = folder.file("one", &sealed(&frames));
    let (bare, missing) = (folder.file("bare", b""), folder.no_file("missing"));
    let here = folder.path().display().to_string();
    let ran = run_on(
        &["paths", &one, &bare, &missing, &here, "-"],
        &sealed(&frames),
    );
    let lines = format!("{HEADER}0 23 104 1 0 0 0 -\n23 20 105 1 0 0 0 \"\"\nend 43 2\n");
    let out = format!(
        "==> {one} <==\n{lines}\n==> {bare} <==\nstop 0 19\n\n==> standard input <==\n{lines}"
    );
    assert_eq!((ran.status, &ran.out), (Some(2), &out));
    for owed in [
        format!("sheafsledge: {missing}: No such file or directory\n"),
        format!("sheafsledge: {here}: Is a directory\n"),
        "\n4 frames, 86 bytes, 0 tails, 0 refusals, 1 stop\n".into(),
    ] {
        assert!(ran.err.contains(&owed), "{ran:?}\n{owed}");
    }
    // A listing without one of its files is not whole.
    let out = folder.no_file("out");
    let ran = run(&["paths", &one, &missing, "-o", &out]);
    assert_eq!(ran.status, Some(2));
    let not_written = format!("sheafsledge: {out}: not written, since a file cannot be read\n");
    assert!(ran.err.contains(&not_written), "{ran:?}");
    assert_eq!(folder.names(), ["bare", "one"]);
}

#[test]
fn wrong_words_have_one_line() {
    let usage = "; try 'sheafsledge paths --help'";
    for (words, owed) in [
        (&["paths"][..], "name a file, or '-' for standard input"),
        (&["paths", "-", "-"], "standard input, '-', is named twice"),
        (&["paths", "--json", "f"], "unknown option '--json'"),
        (
            &["paths", "--dialect", "9P2000", "f"],
            "unknown option '--dialect'",
        ),
        (&["paths", "f", "-o"], "option '-o' needs a FILE"),
    ] {
        let ran = run(words);
        assert_eq!((ran.status, &*ran.out), (Some(2), ""), "{words:?}");
        assert_eq!(ran.err, format!("sheafsledge: {owed}{usage}\n"));
    }
}
