//! Nothing is allocated in reading or writing.

mod counting;

use counting::counted;
use sheafsledge::stream::{Frames, Next};
use sheafsledge::*;

const SESSION: &[u8] = include_bytes!("../../examples/diod-session.bin");
const INSTRUMENT: &[u8] = include_bytes!("../../examples/instrument-session.bin");
const RECORDER: &[u8] = include_bytes!("../../examples/recorder-session.bin");

fn every_frame(stream: &mut Frames<&[u8]>, out: &mut [u8]) -> Result<usize, Refusal> {
    let mut entries = 0;
    while let Ok(Next::Frame(frame)) = stream.next_frame() {
        match frame[4] % 2 {
            0 => Tframe::decode(frame)?.frame.encode(out)?,
            _ => Rframe::decode(frame)?.frame.encode(out)?,
        };
    }
    for frame in stretch(SESSION).flatten() {
        if let Body::Reply(Ok(Rmessage::Readdir(part))) = frame.body {
            for entry in part.entries() {
                entries += 1;
                entry?.encode(out, 0)?;
            }
        }
    }
    Ok(entries)
}

/// The same of an older dialect, whose strings are put together on the stack.
macro_rules! every_older_frame {
    ($name:ident, $dialect:ident, $session:ident) => {
        fn $name(out: &mut [u8]) -> Result<usize, Refusal> {
            let mut len = 0;
            for frame in $dialect::stretch($session).flatten() {
                let tag = frame.tag;
                len += match frame.body {
                    $dialect::Body::Request(msg) => $dialect::Tframe { tag, msg }.encode(out)?,
                    $dialect::Body::Reply(msg) => {
                        $dialect::Rframe { tag, msg: msg? }.encode(out)?
                    }
                };
            }
            Ok(len)
        }
    };
}

every_older_frame!(every_plain_frame, plain, INSTRUMENT);
every_older_frame!(every_unix_frame, unix, RECORDER);

fn walks(out: &mut [u8]) -> Result<usize, Refusal> {
    let head = WalkHead {
        tag: Tag(1),
        fid: Fid(2),
        newfid: Fid(3),
    };
    let len = write_twalk(out, b"dcim/0001.jpg", head, &[[0, 4], [5, 8]])?;
    let Ok(Tmessage::Walk(walk)) = Tframe::decode(&out[..len])?.frame.msg else {
        return Err(Refusal::UnknownType);
    };
    let letters =
        walk.wnames.iter().map(|name| name.len()).sum::<usize>() + walk.wnames.get(1)?.len();
    write_rwalk(out, Tag(1), &[Qid::default(); 16])?;
    Ok(letters)
}

/// What the caller has by itself: sixteen names, sixteen qids, and two strings of the longest.
fn lent(out: &mut [u8], long: &str) -> Result<usize, Refusal> {
    let (fid, newfid, wnames) = (Fid(1), Fid(2), Names::of(&["dcim"; 16])?);
    let (name, symtgt, gid) = (Text::new(long)?, Text::new(long)?, Gid(3));
    let walk = Tmessage::Walk(Twalk {
        fid,
        newfid,
        wnames,
    });
    let link = Tmessage::Symlink(Tsymlink {
        fid,
        name,
        symtgt,
        gid,
    });
    let qids = [Qid::default(); 16];
    let walked = Rmessage::Walk(Rwalk {
        wqids: Qids::from(&qids[..]),
    });
    let mut len = Rframe {
        tag: Tag(1),
        msg: walked,
    }
    .encode(out)?;
    for msg in [Ok(walk), Ok(link)] {
        let frame = Tframe { tag: Tag(1), msg };
        len += frame.encode(out)? + frame.byte_size()?;
    }
    Ok(len)
}

#[test]
fn nothing_is_allocated() {
    let (mut stream, mut out) = (Frames::new(SESSION, 65_536), vec![0; 140_000]);
    let (mut entries, mut letters, mut bytes) = (Ok(0), Ok(0), Ok(0));
    let (mut of_plain, mut of_unix) = (Ok(0), Ok(0));
    let long = "a".repeat(65_535);
    let count = counted(|| {
        entries = every_frame(&mut stream, &mut out);
        letters = walks(&mut out);
        bytes = lent(&mut out, &long);
        of_plain = every_plain_frame(&mut out);
        of_unix = every_unix_frame(&mut out);
    });
    assert_eq!(of_plain, Ok(483));
    assert_eq!(of_unix, Ok(530));
    assert_eq!(letters, Ok(20));
    assert_eq!(bytes, Ok(9 + 16 * 13 + 2 * (17 + 16 * 6) + 2 * 131_089));
    assert!(entries.is_ok_and(|entries| entries > 0), "{entries:?}");
    assert_eq!(count, 0);
    assert_eq!(counted(|| drop(vec![1])), 1, "the count counts");
}
