//! The server of examples/server over a socket, asked by frames that were put down by hand.
#![cfg(target_os = "linux")]

#[path = "../examples/server/files.rs"]
mod files;
#[path = "../examples/server/serve.rs"]
mod serve;
#[path = "../examples/server/session.rs"]
mod session;

use std::fs;
use std::io::{Read, Write};
use std::net::{TcpListener, TcpStream};
use std::os::unix::fs::{symlink, MetadataExt};
use std::path::PathBuf;
use std::thread;

use sheafsledge::stream::{Frames, Next};
use sheafsledge::{Rframe, Rmessage};

/// A folder of its own for each test: a.txt, sub/b.txt, and links out of it.
struct Folder(PathBuf);

impl Folder {
    fn new(name: &str) -> Self {
        let folder = format!("sheafsledge-{name}-{}", std::process::id());
        let path = std::env::temp_dir().join(folder);
        fs::create_dir_all(path.join("shown/sub")).expect("a folder");
        fs::write(path.join("secret"), "secret").expect("a file");
        fs::write(path.join("shown/a.txt"), "hello").expect("a file");
        fs::write(path.join("shown/sub/b.txt"), "there").expect("a file");
        symlink("../secret", path.join("shown/link")).expect("a link");
        symlink("..", path.join("shown/up")).expect("a link");
        Self(path)
    }

    fn ino(&self, name: &str) -> u64 {
        let path = self.0.join("shown").join(name);
        fs::symlink_metadata(path).expect("a file").ino()
    }
}

impl Drop for Folder {
    fn drop(&mut self) {
        let _ = fs::remove_dir_all(&self.0);
    }
}

/// A client that is connected and attached: fid 0 is the root.
struct Client(TcpStream);

impl Client {
    fn new(folder: &Folder) -> Self {
        let listener = TcpListener::bind("127.0.0.1:0").expect("a port");
        let address = listener.local_addr().expect("an address");
        let shown = folder.0.join("shown");
        thread::spawn(move || {
            let (stream, _) = listener.accept().expect("a client");
            let _ = serve::serve(&stream, &stream, &shown);
        });
        let mut client = Self(TcpStream::connect(address).expect("a server"));
        let version = b"\x15\0\0\0\x64\xff\xff\0\x20\0\0\x08\09P2000.L";
        let agreed = b"\x15\0\0\0\x65\xff\xff\0\x20\0\0\x08\09P2000.L";
        assert_eq!(client.asks(version), agreed);
        let attach = b"\x17\0\0\0\x68\x01\0\0\0\0\0\xff\xff\xff\xff\0\0\0\0\0\0\0\0";
        let reply = client.asks(attach);
        assert_eq!(reply[..8], *b"\x14\0\0\0\x69\x01\0\x80");
        assert_eq!(reply[12..], folder.ino("").to_le_bytes());
        client
    }

    /// The reply's bytes.
    fn asks(&mut self, request: &[u8]) -> Vec<u8> {
        self.0.write_all(request).expect("the server reads");
        match Frames::new(&self.0, 65_536).next_frame().expect("a frame") {
            Next::Frame(frame) => frame.to_vec(),
            Next::TooLong(told) => panic!("{told:?}"),
            Next::End => panic!("the server has gone"),
        }
    }

    /// A Twalk from the root to a new fid.
    fn walks(&mut self, newfid: u8, names: &[&str]) -> Vec<u8> {
        let mut body = vec![0, 0, 0, 0, newfid, 0, 0, 0, names.len() as u8, 0];
        for name in names {
            body.extend([name.len() as u8, 0]);
            body.extend(name.as_bytes());
        }
        self.asks(&framed(110, &body))
    }

    /// A Tlopen for reading.
    fn opens(&mut self, fid: u8) -> Vec<u8> {
        self.asks(&framed(12, &[fid, 0, 0, 0, 0, 0, 0, 0]))
    }

    /// A Tread or a Treaddir.
    fn reads(&mut self, ty: u8, fid: u8, offset: u8, count: u8) -> Vec<u8> {
        let body = [fid, 0, 0, 0, offset, 0, 0, 0, 0, 0, 0, 0, count, 0, 0, 0];
        self.asks(&framed(ty, &body))
    }
}

/// With tag 7.
fn framed(ty: u8, body: &[u8]) -> Vec<u8> {
    let size = [7 + body.len() as u8, 0, 0, 0];
    [&size[..], &[ty, 7, 0], body].concat()
}

fn failed(errno: u8) -> Vec<u8> {
    framed(7, &[errno, 0, 0, 0])
}

#[test]
fn a_file_is_read() {
    let folder = Folder::new("read");
    let client = &mut Client::new(&folder);
    let walked = client.walks(1, &["sub", "..", "sub", "b.txt"]);
    assert_eq!(walked[..9], *b"\x3d\0\0\0\x6f\x07\0\x04\0");
    let ends = [22, 35, 48, 61].map(|end| walked[end - 8..end].to_vec());
    let inos = ["sub", "", "sub", "sub/b.txt"].map(|name| folder.ino(name).to_le_bytes());
    assert_eq!(ends, inos);
    assert_eq!(client.opens(1)[..8], *b"\x18\0\0\0\x0d\x07\0\0");
    let read = client.reads(116, 1, 1, 200);
    assert_eq!(read, framed(117, b"\x04\0\0\0here"));
    assert_eq!(client.reads(116, 1, 5, 200), framed(117, &[0; 4]));
    assert_eq!(client.asks(&framed(120, &[1, 0, 0, 0])), framed(121, b""));
    assert_eq!(client.reads(116, 1, 0, 200), failed(9));
}

#[test]
fn attributes_are_told() {
    let folder = Folder::new("attributes");
    let client = &mut Client::new(&folder);
    client.walks(1, &["a.txt"]);
    let mut getattr = vec![1, 0, 0, 0, 0xff, 7, 0, 0, 0, 0, 0, 0];
    let reply = client.asks(&framed(24, &getattr));
    let Ok(Rmessage::GetAttr(told)) = Rframe::decode(&reply).map(|read| read.frame.msg) else {
        panic!("an Rgetattr");
    };
    assert_eq!((told.valid, told.size, told.nlink), (0x7ff, 5, 1));
    assert_eq!(told.mode & 0o170_000, 0o100_000);
    assert_eq!(told.qid.path, folder.ino("a.txt"));
    getattr[0] = 9;
    assert_eq!(client.asks(&framed(24, &getattr)), failed(9));
}

#[test]
fn a_directory_is_listed_in_parts() {
    let folder = Folder::new("listed");
    let client = &mut Client::new(&folder);
    client.walks(1, &[]);
    client.opens(1);
    let mut names = Vec::new();
    loop {
        let reply = client.reads(40, 1, names.len() as u8, 64);
        let Ok(Rmessage::Readdir(part)) = Rframe::decode(&reply).map(|read| read.frame.msg) else {
            panic!("an Rreaddir");
        };
        if part.data.is_empty() {
            break;
        }
        for entry in part.entries() {
            let entry = entry.expect("an entry");
            names.push((entry.name.to_string(), entry.ty, entry.qid.ty));
            assert_eq!(entry.offset, names.len() as u64);
        }
    }
    names.sort();
    let told = [
        (".", 4, 0x80),
        ("..", 4, 0x80),
        ("a.txt", 8, 0),
        ("link", 10, 2),
    ];
    let more = [("sub", 4, 0x80), ("up", 10, 2)];
    let expected = told.iter().chain(&more);
    let expected: Vec<_> = expected
        .map(|(name, ty, qid)| (name.to_string(), *ty, *qid))
        .collect();
    assert_eq!(names, expected);
    assert_eq!(
        client.reads(40, 1, 0, 24),
        failed(22),
        "not even one has room"
    );
}

#[test]
fn the_directory_is_not_left() {
    let folder = Folder::new("left");
    let client = &mut Client::new(&folder);
    let at_root = client.walks(1, &["..", ".."]);
    assert_eq!(at_root[14..22], folder.ino("").to_le_bytes());
    assert_eq!(at_root[27..35], folder.ino("").to_le_bytes());
    assert_eq!(client.walks(2, &["../secret"]), failed(22));
    assert_eq!(client.walks(2, &["secret"]), failed(2));
    // A link is a file of its own, which can't be opened, and nothing lies after it.
    assert_eq!(client.walks(2, &["link"])[9], 2);
    assert_eq!(client.opens(2), failed(40));
    assert_eq!(client.walks(3, &["up", "secret"])[7..9], [1, 0]);
    assert_eq!(
        client.opens(3),
        failed(9),
        "the walk did not go all the way"
    );
}

#[test]
fn what_is_not_done_is_said() {
    let folder = Folder::new("said");
    let client = &mut Client::new(&folder);
    let auth = framed(102, b"\x05\0\0\0\0\0\0\0\0\0\0\0");
    assert_eq!(
        client.asks(&auth),
        failed(2),
        "nobody has to prove who they are"
    );
    client.walks(1, &["a.txt"]);
    let for_writing = framed(12, &[1, 0, 0, 0, 1, 0, 0, 0]);
    assert_eq!(client.asks(&for_writing), failed(30));
    assert_eq!(client.asks(&framed(8, &[0; 4])), failed(95), "a Tstatfs");
    assert_eq!(client.asks(&framed(106, b"")), failed(95), "no type at all");
    assert_eq!(
        client.asks(&framed(120, b"\0")),
        failed(22),
        "a Tclunk cut short"
    );
    assert_eq!(
        client.asks(&framed(122, &[1, 0, 0, 0])),
        failed(30),
        "a Tremove"
    );
    assert_eq!(client.opens(1), failed(9), "its fid is gone");
    assert_eq!(
        client.asks(&framed(108, &[1, 0])),
        framed(109, b""),
        "a Tflush"
    );
}

/// A Tclunk whose copy stands after its last field is one Tclunk, and what is no frame ends it.
#[test]
fn a_tail_is_no_request() {
    let folder = Folder::new("tail");
    let client = &mut Client::new(&folder);
    let clunk = framed(120, &[0; 4]);
    let mut twice = [&clunk[..], &clunk].concat();
    twice[0] = 22;
    assert_eq!(client.asks(&twice), framed(121, b""));
    assert_eq!(
        client.asks(&clunk),
        failed(9),
        "the first answer was the only one"
    );
    client.0.write_all(&[6, 0, 0, 0]).expect("the server reads");
    assert_eq!(client.0.read(&mut [0; 8]).expect("the end"), 0);
}
