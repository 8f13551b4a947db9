//! What the frames of a session say. Texts of the session are quoted: a terminal obeys none of them.

use sheafsledge::plain::{stretch, Body, Listed, Rmessage, Stat, Tmessage};
use sheafsledge::Qid;

/// What 9P2000 has for a directory in a qid's type.
const DIRECTORY: u8 = 0x80;

/// A line for each frame, and what is wrong with the session, if anything is.
pub fn session(bytes: &[u8]) -> (String, Option<String>) {
    let (mut text, mut refused) = (String::new(), 0);
    for frame in stretch(bytes) {
        match frame {
            Ok(frame) => {
                refused += usize::from(frame.body.refusal().is_some());
                text += &line(&frame);
            }
            Err(stop) => return (text, Some(stop.to_string())),
        }
    }
    let wrong = match refused {
        0 => None,
        1 => Some("one frame is refused".to_string()),
        _ => Some(format!("{refused} frames are refused")),
    };
    (text, wrong)
}

/// Its position and its tag, which way it goes, and what it says.
fn line(frame: &Listed) -> String {
    let Listed { at, tag, .. } = frame;
    let (way, says) = match &frame.body {
        Body::Request(Ok(msg)) => ("asks", request(msg)),
        Body::Reply(Ok(msg)) => ("told", reply(msg)),
        Body::Request(Err(refusal)) => ("asks", format!("no message: {refusal}")),
        Body::Reply(Err(refusal)) => ("told", format!("no message: {refusal}")),
    };
    let tail = match frame.tail {
        0 => String::new(),
        tail => format!(" (and {tail} bytes more)"),
    };
    format!("{at} {tag} {way} {says}{tail}\n")
}

fn request(msg: &Tmessage) -> String {
    match msg {
        Tmessage::Version(m) => format!("for {:?}, frames of {} bytes", m.version, m.msize),
        Tmessage::Auth(m) => format!("{} to prove that it is {:?}", m.afid, m.uname),
        Tmessage::Attach(m) => format!("{} to be the root {:?} of {:?}", m.fid, m.aname, m.uname),
        Tmessage::Flush(m) => format!("to take {} back", m.oldtag),
        Tmessage::Walk(m) => format!("{} to be {:?} from {} on", m.newfid, m.wnames, m.fid),
        Tmessage::Open(m) => format!("to open {} with mode {}", m.fid, m.mode),
        Tmessage::Create(m) => {
            format!("to make {:?} in {} with {:o}", m.name, m.fid, m.perm)
        }
        Tmessage::Read(m) => format!("for {} bytes of {} from {} on", m.count, m.fid, m.offset),
        Tmessage::Write(m) => format!("to write {} bytes to {}", m.data.len(), m.fid),
        Tmessage::Clunk(m) => format!("to give {} up", m.fid),
        Tmessage::Remove(m) => format!("to remove {}", m.fid),
        Tmessage::Stat(m) => format!("what {} is", m.fid),
        Tmessage::Wstat(m) => format!("{} to be {}", m.fid, stat(&m.stat)),
    }
}

fn reply(msg: &Rmessage) -> String {
    match msg {
        Rmessage::Version(m) => format!("{:?}, frames of {} bytes", m.version, m.msize),
        Rmessage::Auth(m) => format!("prove it by {}", kind(m.aqid)),
        Rmessage::Attach(m) => format!("the root is {}", kind(m.qid)),
        Rmessage::Error(m) => format!("it has failed: {:?}", m.ename),
        Rmessage::Flush => "it is taken back".into(),
        Rmessage::Walk(m) => match m.wqids.iter().last() {
            None => "it is the same file".into(),
            Some(last) => format!("found {}, the last is {}", m.wqids.len(), kind(last)),
        },
        Rmessage::Open(m) => format!("{} is open", kind(m.qid)),
        Rmessage::Create(m) => format!("{} is made", kind(m.qid)),
        Rmessage::Read(m) => format!("{:?}", String::from_utf8_lossy(&m.data)),
        Rmessage::Write(m) => format!("{} bytes are written", m.count),
        Rmessage::Clunk => "it is given up".into(),
        Rmessage::Remove => "it is removed".into(),
        Rmessage::Stat(m) => stat(&m.stat),
        Rmessage::Wstat => "it is changed".into(),
    }
}

fn kind(qid: Qid) -> String {
    let what = match qid.ty & DIRECTORY {
        0 => "file",
        _ => "directory",
    };
    format!("{what} {}", qid.path)
}

/// In a Twstat a number of ones alone, and an empty text, leave what there is.
fn stat(stat: &Stat) -> String {
    let mut all = vec![format!("{:?}", stat.name)];
    if stat.length != u64::MAX {
        all.push(format!("{} bytes", stat.length));
    }
    if stat.mode != u32::MAX {
        all.push(format!("mode {:o}", stat.mode));
    }
    if !stat.uid.is_empty() {
        all.push(format!("of {:?}", stat.uid));
    }
    all.join(", ")
}
