//! What `pairs` prints. The frames are put down by hand, and so is what belongs to each.

use crate::running::*;

/// A frame without a body that could be read: seven bytes.
fn bare(ty: u8, tag: u8) -> Vec<u8> {
    vec![7, 0, 0, 0, ty, tag, 0]
}

/// Of frames of seven bytes, by type and tag, the last column; then strays and open requests.
fn paired(frames: &[(u8, u8)]) -> (Vec<String>, String) {
    let bytes: Vec<u8> = frames
        .iter()
        .flat_map(|(ty, tag)| bare(*ty, *tag))
        .collect();
    let ran = run_on(&["pairs", "-"], &bytes);
    let lines: Vec<&str> = ran.out.lines().collect();
    assert_eq!(lines[0], "at size type tag answer tail pair");
    assert_eq!(lines.len(), frames.len() + 2);
    let column = |line: &&str| line.split(' ').next_back().unwrap_or("").to_string();
    let rows = &lines[1..=frames.len()];
    let sums = ran.err.lines().next().unwrap_or("").to_string();
    let sums = sums.split(", ").skip(5).collect::<Vec<_>>().join(", ");
    (rows.iter().map(column).collect(), sums)
}

#[track_caller]
fn owes(frames: &[(u8, u8)], column: &[&str], sums: &str) {
    let (told, said) = paired(frames);
    assert_eq!(told, column);
    assert_eq!(said, sums);
}

/// Each reply of the session follows its request, and several are Rlerrors.
#[test]
fn every_frame_of_the_session_has_its_other() {
    let ran = run_on(&["pairs", "-"], SESSION);
    let rows: Vec<Vec<&str>> = ran
        .out
        .lines()
        .map(|line| line.split(' ').collect())
        .collect();
    let rows = &rows[1..rows.len() - 1];
    assert_eq!(rows.len(), 224);
    for pair in rows.chunks(2) {
        assert_eq!((pair[0][6], pair[1][6]), (pair[1][0], pair[0][0]));
    }
    assert!(rows.iter().any(|row| row[2] == "7"), "an Rlerror is there");
    let said = "224 frames, 9636 bytes, 0 tails, 0 refusals, 0 stops, 0 strays, 0 open requests\n";
    assert_eq!((ran.status, ran.err.as_str()), (Some(0), said));
    let listed = sellers_listing();
    let without = |line: &str| line.rsplit_once(' ').map(|(front, _)| front.to_string());
    let fronts = ran.out.lines().filter_map(without).take(225);
    assert!(fronts.eq(listed.lines().take(225).map(String::from)));
}

#[test]
fn a_reply_of_the_next_number_and_7_answer() {
    owes(
        &[(108, 1), (109, 1)],
        &["7", "0"],
        "0 strays, 0 open requests",
    );
    owes(
        &[(108, 1), (7, 1)],
        &["7", "0"],
        "0 strays, 0 open requests",
    );
    owes(
        &[(108, 1), (107, 1)],
        &["open", "stray"],
        "1 stray, 1 open request",
    );
    owes(
        &[(108, 1), (109, 2)],
        &["open", "stray"],
        "1 stray, 1 open request",
    );
    owes(
        &[(108, 1), (7, 2)],
        &["open", "stray"],
        "1 stray, 1 open request",
    );
}

/// 106 is no request, and a reply before its request answers nothing.
#[test]
fn what_cannot_be_answered_is_open_or_stray() {
    owes(
        &[(106, 1), (7, 1)],
        &["open", "stray"],
        "1 stray, 1 open request",
    );
    owes(
        &[(106, 1), (107, 1)],
        &["open", "stray"],
        "1 stray, 1 open request",
    );
    owes(
        &[(109, 1), (108, 1)],
        &["stray", "open"],
        "1 stray, 1 open request",
    );
}

/// Of two requests of a tag the latest that it can answer; each is answered once.
#[test]
fn the_latest_that_is_not_answered_is_taken() {
    let twice = [(108, 1), (108, 1), (109, 1), (109, 1), (109, 1)];
    owes(
        &twice,
        &["21", "14", "7", "0", "stray"],
        "1 stray, 0 open requests",
    );
    let between = [(110, 1), (108, 1), (111, 1), (7, 1), (7, 1)];
    owes(
        &between,
        &["14", "21", "0", "7", "stray"],
        "1 stray, 0 open requests",
    );
    let mixed = [
        (108, 1),
        (110, 1),
        (108, 1),
        (109, 1),
        (7, 1),
        (109, 1),
        (7, 1),
    ];
    let column = ["35", "28", "21", "14", "7", "0", "stray"];
    owes(&mixed, &column, "1 stray, 0 open requests");
    let crossed = [(120, 1), (116, 2), (117, 2), (121, 1)];
    owes(
        &crossed,
        &["21", "14", "7", "0"],
        "0 strays, 0 open requests",
    );
}

/// The refused bodies above are status 1 by themselves; here nothing else is wrong.
#[test]
fn a_stray_alone_is_status_1() {
    let rflush = bare(109, 1);
    let ran = run_on(&["pairs", "-"], &rflush);
    let out = "at size type tag answer tail pair\n0 7 109 1 0 0 stray\nend 7 1\n";
    let err = "1 frame, 7 bytes, 0 tails, 0 refusals, 0 stops, 1 stray, 0 open requests\n";
    assert_eq!(
        (ran.status, ran.out.as_str(), ran.err.as_str()),
        (Some(1), out, err)
    );
}

#[test]
fn several_files_are_paired_each_for_itself() {
    let folder = Folder::new();
    let asked = folder.file("asked", b"\x09\0\0\0\x6c\x01\0\x02\0");
    let answered = folder.file("answered", &bare(109, 1));
    let ran = run(&["pairs", &asked, &answered]);
    assert!(ran.out.contains("0 9 108 1 0 0 open\n") && ran.out.contains("0 7 109 1 0 0 stray\n"));
    assert!(
        ran.err.ends_with(", 1 stray, 1 open request\n"),
        "{}",
        ran.err
    );
    let missing = run(&["pairs", &folder.no_file("none")]);
    assert_eq!((missing.status, missing.err.lines().count()), (Some(2), 1));
    assert_eq!(run(&["pairs"]).status, Some(2));
}
