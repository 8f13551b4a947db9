//! The example `recorder` asks a server for 9P2000.u and goes on in what it answers. The servers here know
//! their part by heart: what they have to be asked, byte by byte, and what they answer.

#[path = "../examples/recorder/ask.rs"]
mod ask;
#[path = "../examples/recorder/words.rs"]
mod words;

use std::io::{self, ErrorKind, Read, Write};
use std::os::unix::net::UnixStream;
use std::thread;

const TVERSION: &[u8] = b"\x15\0\0\0\x64\xff\xff\0\x20\0\0\x08\x009P2000.u";
const TATTACH: &[u8] = b"\x19\0\0\0\x68\x01\0\0\0\0\0\xff\xff\xff\xff\x06\0nobody\0\0";
const TATTACH_U: &[u8] =
    b"\x1d\0\0\0\x68\x01\0\0\0\0\0\xff\xff\xff\xff\x06\0nobody\0\0\xff\xff\xff\xff";
const RATTACH: &[u8] = b"\x14\0\0\0\x69\x01\0\x80\0\0\0\0\x01\0\0\0\0\0\0\0";
const TSTAT: &[u8] = b"\x0b\0\0\0\x7c\x01\0\0\0\0\0";
const TCLUNK: &[u8] = b"\x0b\0\0\0\x78\x01\0\0\0\0\0";
const RCLUNK: &[u8] = b"\x07\0\0\0\x79\x01\0";

fn rversion(version: &str) -> Vec<u8> {
    let (size, count) = (13 + version.len() as u8, version.len() as u8);
    let head = [size, 0, 0, 0, 101, 0xff, 0xff, 0, 0x20, 0, 0, count, 0];
    [&head[..], version.as_bytes()].concat()
}

/// A stat all of zeros that has this size: its count is two more.
fn rstat(size: u8) -> Vec<u8> {
    let head = [size + 11, 0, 0, 0, 125, 1, 0, size + 2, 0, size, 0];
    [&head[..], &vec![0; size.into()]].concat()
}

/// What is said where the server has this part: the requests that it waits for, and its replies.
fn said(part: Vec<(&'static [u8], Vec<u8>)>) -> (io::Result<Vec<u8>>, Vec<u8>) {
    let all = part
        .iter()
        .flat_map(|(asked, told)| [asked, &told[..]].concat());
    let all = all.collect();
    let (ours, mut theirs) = UnixStream::pair().expect("a pair of sockets");
    let server = thread::spawn(move || {
        for (asked, told) in part {
            let mut request = vec![0; asked.len()];
            theirs.read_exact(&mut request).expect("a request");
            assert_eq!(request, asked);
            theirs.write_all(&told).expect("it listens");
        }
    });
    let exchange = ask::exchange(&ours, &ours);
    server.join().expect("the server was asked its part");
    (exchange, all)
}

#[test]
fn it_reads_by_9p2000_u_where_the_server_has_it() {
    let (exchange, all) = said(vec![
        (TVERSION, rversion("9P2000.u")),
        (TATTACH_U, RATTACH.to_vec()),
        (TSTAT, rstat(61)),
        (TCLUNK, RCLUNK.to_vec()),
    ]);
    let frames = exchange.expect("all is answered");
    assert_eq!(frames, all);
    let told = r#"0 65535 Tversion msize=8192 version="9P2000.u"
21 65535 Rversion msize=8192 version="9P2000.u"
42 1 Tattach fid=0 afid=4294967295 uname="nobody" aname="" n_uname=4294967295
71 1 Rattach qid=128.0.1
91 1 Tstat fid=0
102 1 Rstat stat=(ty=0 dev=0 qid=0.0.0 mode=0 atime=0 mtime=0 length=0 name="" uid="" gid="" muid="" extension="" n_uid=0 n_gid=0 n_muid=0)
174 1 Tclunk fid=0
185 1 Rclunk
"#;
    assert_eq!(words::session(&frames), (told.to_string(), None));
}

#[test]
fn it_reads_by_9p2000_where_the_server_has_no_more() {
    let (exchange, all) = said(vec![
        (TVERSION, rversion("9P2000")),
        (TATTACH, RATTACH.to_vec()),
        (TSTAT, rstat(47)),
        (TCLUNK, RCLUNK.to_vec()),
    ]);
    let frames = exchange.expect("all is answered");
    assert_eq!(frames, all);
    let (text, wrong) = words::session(&frames);
    assert_eq!(wrong, None);
    let stat = "length=0 name=\"\" uid=\"\" gid=\"\" muid=\"\")\n";
    assert!(text.contains(stat), "{text}");
    assert!(!text.contains("refusal"), "{text}");
}

#[test]
fn it_asks_nothing_more_of_another_version() {
    let (exchange, all) = said(vec![(TVERSION, rversion("unknown"))]);
    let frames = exchange.expect("the version is answered");
    assert_eq!(frames, all);
    let (_, wrong) = words::session(&frames);
    assert_eq!(wrong.as_deref(), Some("no dialect \"unknown\" here"));
}

#[test]
fn a_server_that_hangs_up_is_an_error() {
    let (exchange, _) = said(vec![
        (TVERSION, rversion("9P2000.u")),
        (TATTACH_U, Vec::new()),
    ]);
    let error = exchange.expect_err("there is no reply");
    assert_eq!(error.kind(), ErrorKind::UnexpectedEof);
}
