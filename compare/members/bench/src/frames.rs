//! The frames that are measured, written by the seller's crate.

use judge::cases::bytes;
use p9::draw::{Draw, Draws};
use p9::protocol::{
    Data, Dirent, P9String, Rframe, Rmessage, Rread, Rreaddir, Tframe, Tmessage, Twalk, Twrite,
};

type Named = (&'static str, Vec<u8>);

const LONG: usize = 65_536;

pub fn requests() -> Vec<Named> {
    let draws = &mut draws();
    vec![
        ("Tread", t(Tmessage::Read(Draw::draw(draws)))),
        ("Twalk-3", twalk(3)),
        ("Twalk-16", twalk(16)),
        ("Twrite-64KiB", twrite()),
    ]
}

pub fn replies() -> Vec<Named> {
    let draws = &mut draws();
    vec![
        ("Rgetattr", r(Rmessage::GetAttr(Draw::draw(draws)))),
        ("Rreaddir-8KiB", rreaddir()),
        ("Rread-64KiB", rread()),
    ]
}

fn draws() -> Draws {
    Draws::new(1)
}

fn twalk(count: usize) -> Vec<u8> {
    t(Tmessage::Walk(Twalk {
        fid: 1,
        newfid: 2,
        wnames: (0..count).map(name).collect(),
    }))
}

fn twrite() -> Vec<u8> {
    let data = Data(draws().bytes(LONG));
    t(Tmessage::Write(Twrite {
        fid: 1,
        offset: 0,
        data,
    }))
}

fn rread() -> Vec<u8> {
    let data = Data(draws().bytes(LONG));
    r(Rmessage::Read(Rread { data }))
}

/// 256 entries of 32 bytes: 24 and a name.
fn rreaddir() -> Vec<u8> {
    let draws = &mut draws();
    let entry = |place: usize| {
        bytes(&Dirent {
            qid: Draw::draw(draws),
            offset: place as u64 + 1,
            ty: 8,
            name: name(place),
        })
    };
    let data = Data((0..256).flat_map(entry).collect());
    r(Rmessage::Readdir(Rreaddir { data }))
}

/// Eight plain letters and digits.
fn name(place: usize) -> P9String {
    P9String::new(format!("track{place:03}")).expect("no zero byte is in it")
}

fn t(msg: Tmessage) -> Vec<u8> {
    let msg = Ok(msg);
    bytes(&Tframe { tag: 1, msg })
}

fn r(msg: Rmessage) -> Vec<u8> {
    bytes(&Rframe { tag: 1, msg })
}
