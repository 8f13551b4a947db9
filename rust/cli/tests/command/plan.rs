//! What `plan` prints. The plans are put down by hand, those with many pieces by arithmetic.

use std::fs;
use std::process::Stdio;

use crate::running::*;

/// The words, and each piece that is owed.
#[track_caller]
fn owes(words: [&str; 3], pieces: &[[u64; 2]]) {
    let ran = run(&["plan", words[0], words[1], words[2]]);
    let lines = pieces.iter().map(|[at, len]| format!("{at} {len}\n"));
    let owed = format!(
        "offset length\n{}pieces {}\n",
        lines.collect::<String>(),
        pieces.len()
    );
    assert_eq!((ran.status, ran.out), (Some(0), owed));
    assert_eq!(ran.err, "");
}

/// Refused: one line, and nothing else.
#[track_caller]
fn refused(words: [&str; 3], line: &str) {
    let ran = run(&["plan", words[0], words[1], words[2]]);
    let owed = format!("sheafsledge: refused with {line}\n");
    assert_eq!((ran.status, ran.out.as_str()), (Some(1), ""));
    assert_eq!(ran.err, owed);
}

const SMALL: &str = "26: the msize is below 24, and no Twrite with data fits";
const FAR: &str = "27: the end of the write is above 18,446,744,073,709,551,615";
const FULL: &str = "24: the table has too few rows";
const LAST: &str = "18446744073709551615";

#[test]
fn pieces_are_full_but_for_the_last() {
    owes(["5", "3", "25"], &[[5, 2], [7, 1]]);
    owes(["0", "4", "25"], &[[0, 2], [2, 2]]);
    owes(["0", "3", "24"], &[[0, 1], [1, 1], [2, 1]]);
    owes(["0", "100000", "65536"], &[[0, 65513], [65513, 34487]]);
    owes(["0", "0", "24"], &[]);
    owes([LAST, "0", "4294967295"], &[]);
    owes(["007", "1", "0024"], &[[7, 1]]);
}

#[test]
fn data_stops_growing_with_the_msize() {
    let two = [[0, 33_554_432], [33_554_432, 1]];
    owes(["0", "33554432", "33554455"], &two[..1]);
    owes(["0", "33554433", "33554455"], &two);
    owes(["0", "33554433", "33554456"], &two);
    owes(["0", "33554433", "4294967295"], &two);
    let short = [[0, 33_554_431], [33_554_431, 1]];
    owes(["0", "33554432", "33554454"], &short);
}

#[test]
fn the_end_may_be_the_greatest_number() {
    let last = u64::MAX;
    owes(["18446744073709551614", "1", "24"], &[[last - 1, 1]]);
    owes(
        ["18446744073709551612", "3", "25"],
        &[[last - 3, 2], [last - 1, 1]],
    );
    refused([LAST, "1", "24"], FAR);
    refused(["1", LAST, "24"], FAR);
    refused(["18446744073709551614", "2", "4294967295"], FAR);
}

#[test]
fn refusals_come_in_their_order() {
    refused(["0", "0", "23"], SMALL);
    refused([LAST, LAST, "0"], SMALL);
    refused(["0", LAST, "23"], SMALL);
    refused(["0", LAST, "24"], FULL);
    refused(["0", "16777217", "24"], FULL);
    refused(["0", LAST, "4294967295"], FULL);
}

#[test]
fn many_pieces_are_each_on_a_line() {
    let pieces: Vec<_> = (0..100_000).map(|i| [7 + 9 * i, 9]).collect();
    owes(["7", "900000", "32"], &pieces);
}

#[test]
fn other_words_are_told_in_one_line() {
    let over = "18446744073709551616";
    for (words, line) in [
        (&["plan"][..], "name FIRST, LENGTH and MSIZE"),
        (&["plan", "0", "1"], "name FIRST, LENGTH and MSIZE"),
        (
            &["plan", "0", "1", "24", "9"],
            "name FIRST, LENGTH and MSIZE",
        ),
        (
            &["plan", "a", "1", "24"],
            "FIRST is no decimal number up to 18446744073709551615: 'a'",
        ),
        (
            &["plan", "0", "+1", "24"],
            "LENGTH is no decimal number up to 18446744073709551615: '+1'",
        ),
        (
            &["plan", "0", over, "24"],
            "LENGTH is no decimal number up to 18446744073709551615: '18446744073709551616'",
        ),
        (
            &["plan", "0", "1", "0x18"],
            "MSIZE is no decimal number up to 4294967295: '0x18'",
        ),
        (
            &["plan", "0", "1", "4294967296"],
            "MSIZE is no decimal number up to 4294967295: '4294967296'",
        ),
        (
            &["plan", "0", " 1", "24"],
            "LENGTH is no decimal number up to 18446744073709551615: ' 1'",
        ),
        (&["plan", "0", "-1", "24"], "unknown option '-1'"),
        (
            &["plan", "--", "0", "-1", "24"],
            "LENGTH is no decimal number up to 18446744073709551615: '-1'",
        ),
    ] {
        let ran = run(words);
        let owed = format!("sheafsledge: {line}; try 'sheafsledge plan --help'\n");
        assert_eq!((ran.status, ran.out.as_str()), (Some(2), ""), "{words:?}");
        assert_eq!(ran.err, owed);
    }
    let empty = run(&["plan", "", "1", "24"]);
    assert_eq!(empty.status, Some(2));
    assert!(empty.err.starts_with("sheafsledge: FIRST is no decimal"));
}

#[test]
fn a_file_appears_only_with_a_plan() {
    let folder = Folder::new();
    let file = folder.no_file("plan");
    let ran = run(&["plan", "0", "1", "23", "-o", &file]);
    assert_eq!(ran.status, Some(1));
    assert_eq!(folder.names(), [] as [&str; 0]);
    let ran = run(&["plan", "0", "1", "24", "-o", &file]);
    assert_eq!((ran.status, ran.out.as_str()), (Some(0), ""));
    let text = fs::read_to_string(&file).expect("it is there");
    assert_eq!(text, "offset length\n0 1\npieces 1\n");
}

#[test]
fn a_closed_pipe_ends_it() {
    let mut command = command();
    command.args(["plan", "0", "16777216", "24"]);
    command.stdout(Stdio::piped()).stderr(Stdio::piped());
    let mut child = command.spawn().expect("it starts");
    drop(child.stdout.take());
    let ran = Ran::of(child.wait_with_output().expect("it ends"));
    assert_eq!((ran.status, ran.err.as_str()), (Some(141), ""));
}
