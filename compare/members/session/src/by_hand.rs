//! A few frames with every path after them, by hand: the program's text tells no path.

use p9::draw::Draws;

use crate::beside::{beside, Other};
use crate::frames::{drawn, lcreate, name, rwalk, walk, with_fids};
use crate::session::NO_FID;

/// A request and its reply, and what every known fid names then.
type Step = ([Vec<u8>; 2], &'static [(u32, &'static str)]);

fn walked(fid: u32, newfid: u32, names: &[&str], draws: &mut Draws) -> [Vec<u8>; 2] {
    let names: Vec<_> = names.iter().map(|part| name(part)).collect();
    let reply = rwalk(1, names.len(), draws);
    [walk(1, fid, newfid, names), reply]
}

fn plain(ty: u8, fids: &[u32], draws: &mut Draws) -> [Vec<u8>; 2] {
    [with_fids(ty, 1, fids, draws), drawn(ty + 1, 1, draws)]
}

fn steps(draws: &mut Draws) -> Vec<Step> {
    let created = [lcreate(1, 3, name("..")), drawn(15, 1, draws)];
    vec![
        (plain(104, &[1, NO_FID], draws), &[(1, "")]),
        (walked(1, 2, &["a", "b"], draws), &[(1, ""), (2, "/a/b")]),
        (
            walked(2, 3, &["..", "c"], draws),
            &[(1, ""), (2, "/a/b"), (3, "/a/c")],
        ),
        (created, &[(1, ""), (2, "/a/b"), (3, "/a/c/..")]),
        (
            walked(3, 3, &["..", "..", "x/y"], draws),
            &[(1, ""), (2, "/a/b"), (3, "/a/x/y")],
        ),
        (
            walked(3, 3, &[".."], draws),
            &[(1, ""), (2, "/a/b"), (3, "/a")],
        ),
        (
            plain(30, &[2, 4], draws),
            &[(1, ""), (2, "/a/b"), (3, "/a"), (4, "/a/b")],
        ),
        (plain(120, &[2], draws), &[(1, ""), (3, "/a"), (4, "/a/b")]),
        (
            walked(1, 2, &["..", "..", "", "."], draws),
            &[(1, ""), (2, "//."), (3, "/a"), (4, "/a/b")],
        ),
        (
            plain(20, &[4], draws),
            &[(1, ""), (2, "//."), (3, "/a"), (4, "/a/b")],
        ),
        (plain(122, &[3], draws), &[(1, ""), (2, "//."), (4, "/a/b")]),
        ([drawn(100, 1, draws), drawn(101, 1, draws)], &[]),
    ]
}

/// What the steps say.
struct ByHand {
    steps: Vec<Step>,
    followed: usize,
}

impl Other for ByHand {
    fn step(&mut self, _: &[u8], _: usize) -> u8 {
        self.followed += 1;
        0
    }

    fn path(&self, _: &[u8], fid: u32) -> Result<Vec<u8>, u8> {
        let replied = self.steps[..self.followed / 2].last();
        let mut paths = replied.map_or(&[][..], |step| step.1).iter();
        let found = paths.find(|(known, _)| *known == fid);
        found.map(|(_, path)| path.as_bytes().to_vec()).ok_or(23)
    }
}

/// How many steps there are, and the first difference.
pub fn paths() -> (usize, Option<String>) {
    let (steps, followed) = (steps(&mut Draws::new(0)), 0);
    let stretch = steps.iter().flat_map(|step| step.0.concat());
    let stretch: Vec<u8> = stretch.collect();
    let count = steps.len();
    (count, beside(&stretch, &mut ByHand { steps, followed }))
}
