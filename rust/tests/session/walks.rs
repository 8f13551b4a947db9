//! F15.3 and F15.4: places and their paths.

use super::frames::*;
use super::tracing::*;

#[test]
fn a_walk_makes_children() {
    let mut frames = rooted(0);
    frames.extend(walked(0, 1, &["dcim", "a.jpg"]));
    frames.extend(walked(1, 2, &[]));
    frames.extend(walked(1, 1, &["x"]));
    let paths = &[
        (0, Some("")),
        (1, Some("/dcim/a.jpg/x")),
        (2, Some("/dcim/a.jpg")),
    ];
    traced("oldest name first; a copy stays where it is", frames, paths);

    for (names, owed) in [
        (&[".."][..], "/a"),
        (&["..", ".."], ""),
        (&["..", "..", ".."], ""),
        (&["..", "c"], "/a/c"),
        (&["c", ".."], "/a/b"),
        (&["."], "/a/b/."),
        (&["", ""], "/a/b//"),
        (&["..."], "/a/b/..."),
        (&["c/..", ".."], "/a/b"),
        (&["x/y"], "/a/b/x/y"),
    ] {
        let mut frames = rooted(0);
        frames.extend(walked(0, 1, &["a", "b"]));
        frames.extend(walked(1, 2, names));
        traced(
            "'..' alone goes up, and a root stays",
            frames,
            &[(2, Some(owed))],
        );
    }
}

#[test]
fn a_short_walk_gives_nothing() {
    for qids in [0, 1, 3] {
        let mut frames = rooted(0);
        frames.extend([
            (walk(1, 0, 5, &["a", "b"]), 0),
            (clunk(2, 0), 0),
            (rclunk(2), 0),
            (rwalk(1, qids), 0),
            (flush(1, 9), 0),
        ]);
        let why = "another number of qids: nothing is asked, and the tag is closed";
        traced(why, frames, &[(5, None)]);
    }
    let mut frames = rooted(0);
    frames.extend(accepted([walk(1, 0, 0, &["a"]), rwalk(1, 0)]));
    traced("newfid = fid stays where it is", frames, &[(0, Some(""))]);
    let mut frames = rooted(0);
    frames.extend(accepted([walk(1, 0, 5, &[]), rwalk(1, 1)]));
    traced("a qid too many", frames, &[(5, None)]);
}

#[test]
fn a_file_that_is_made_moves_its_fid() {
    for name in ["a", "..", ".", ""] {
        let mut frames = rooted(0);
        frames.extend(walked(0, 5, &["d"]));
        frames.extend(accepted([lcreate(1, 5, name), rlcreate(1)]));
        let owed = format!("/d/{name}");
        let why = "a child whatever the name";
        traced(why, frames, &[(0, Some("")), (5, Some(&owed))]);
    }
    let mut frames = rooted(0);
    frames.extend(accepted([lcreate(1, 0, ".."), rlcreate(1)]));
    frames.extend(walked(0, 1, &[".."]));
    traced(
        "up from it is the root",
        frames,
        &[(0, Some("/..")), (1, Some(""))],
    );
}

#[test]
fn an_attribute_is_where_its_file_is() {
    let mut frames = rooted(0);
    frames.extend(walked(0, 5, &["d"]));
    frames.extend(accepted([xattrwalk(1, 5, 6), rxattrwalk(1)]));
    traced("Rxattrwalk", frames, &[(5, Some("/d")), (6, Some("/d"))]);
}

#[test]
fn names_alone_move_nothing() {
    let mut frames = rooted(0);
    frames.extend(walked(0, 5, &["d"]));
    frames.extend(accepted([
        rename(1, 5, 0, "e"),
        done(21, 1),
        renameat(1, [0, 0], ["d", "e"]),
        done(75, 1),
        unlinkat(1, 0, "d"),
        done(77, 1),
        link(1, 0, 5, "f"),
        done(71, 1),
    ]));
    traced("renaming and unlinking", frames, &[(5, Some("/d"))]);
}

#[test]
fn each_root_is_its_own() {
    let mut frames = rooted(0);
    frames.extend(rooted(1));
    frames.extend(walked(1, 2, &["a"]));
    frames.extend(walked(0, 3, &["a", "b"]));
    frames.extend(walked(3, 4, &["..", ".."]));
    let paths = &[
        (0, Some("")),
        (2, Some("/a")),
        (3, Some("/a/b")),
        (4, Some("")),
    ];
    traced("two attaches", frames, paths);
}
