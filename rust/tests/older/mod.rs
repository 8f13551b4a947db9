//! What the tests of the two older dialects share: frames by hand that are the same in both, and all that a
//! frame is asked.

use sheafsledge::Qid;

pub const QID: Qid = Qid {
    ty: 0x80,
    version: 1,
    path: 2,
};

/// A stat's numbers on the wire: those of `STAT`.
pub const NUMBERS: &[u8] =
    b"\x01\0\x02\0\0\0\0\x03\0\0\0\x04\0\0\0\0\0\0\0\xa4\x01\0\0\x05\0\0\0\x06\0\0\0\
                         \x07\0\0\0\0\0\0\0";
/// Its strings; 9P2000.u's has more after them.
pub const STRINGS: &[u8] = b"\x01\0a\x01\0b\0\0\x02\0cd";

/// A frame of a type and a tag, whose size is right.
pub fn framed(ty: u8, tag: u16, body: &[u8]) -> Vec<u8> {
    let size = (7 + body.len()) as u32;
    [&size.to_le_bytes(), &[ty][..], &tag.to_le_bytes(), body].concat()
}

/// The requests that are the same in both, and their bytes.
macro_rules! shared_requests {
    () => {{
        let (fid, newfid, msize) = (Fid(1), Fid(2), 8192);
        let version = Text::from_static("9P2000");
        let wnames = Names::of(&["a", "bc"]).unwrap();
        let (offset, count) = (256, 8192);
        let data = Data(b"leap");
        vec![
            (
                65535,
                Tmessage::Version(Tversion { msize, version }),
                b"\x13\0\0\0\x64\xff\xff\0\x20\0\0\x06\09P2000".to_vec(),
            ),
            (
                7,
                Tmessage::Flush(Tflush { oldtag: Tag(6) }),
                b"\x09\0\0\0\x6c\x07\0\x06\0".to_vec(),
            ),
            (
                3,
                Tmessage::Walk(Twalk {
                    fid,
                    newfid,
                    wnames,
                }),
                b"\x18\0\0\0\x6e\x03\0\x01\0\0\0\x02\0\0\0\x02\0\x01\0a\x02\0bc".to_vec(),
            ),
            (
                2,
                Tmessage::Open(Topen { fid, mode: 0x11 }),
                b"\x0c\0\0\0\x70\x02\0\x01\0\0\0\x11".to_vec(),
            ),
            (
                8,
                Tmessage::Read(Tread { fid, offset, count }),
                b"\x17\0\0\0\x74\x08\0\x01\0\0\0\0\x01\0\0\0\0\0\0\0\x20\0\0".to_vec(),
            ),
            (
                9,
                Tmessage::Write(Twrite {
                    fid,
                    offset: 3,
                    data,
                }),
                b"\x1b\0\0\0\x76\x09\0\x01\0\0\0\x03\0\0\0\0\0\0\0\x04\0\0\0leap".to_vec(),
            ),
            (
                10,
                Tmessage::Clunk(Tclunk { fid }),
                b"\x0b\0\0\0\x78\x0a\0\x01\0\0\0".to_vec(),
            ),
            (
                11,
                Tmessage::Remove(Tremove { fid }),
                b"\x0b\0\0\0\x7a\x0b\0\x01\0\0\0".to_vec(),
            ),
            (
                4,
                Tmessage::Stat(Tstat { fid }),
                b"\x0b\0\0\0\x7c\x04\0\x01\0\0\0".to_vec(),
            ),
        ]
    }};
}

/// The same of replies.
macro_rules! shared_replies {
    () => {{
        let version = Text::from_static("9P2000");
        let (qid, iounit, msize) = (QID, 24, 8192);
        let wqids = Qids::from(&[QID][..]);
        let qid_bytes = b"\x80\x01\0\0\0\x02\0\0\0\0\0\0\0";
        let opened = [&qid_bytes[..], b"\x18\0\0\0"].concat();
        let walked = [b"\x01\0", &qid_bytes[..]].concat();
        let data = Data(b"leap");
        vec![
            (
                65535,
                Rmessage::Version(Rversion { msize, version }),
                b"\x13\0\0\0\x65\xff\xff\0\x20\0\0\x06\09P2000".to_vec(),
            ),
            (
                6,
                Rmessage::Auth(Rauth { aqid: QID }),
                framed(103, 6, qid_bytes),
            ),
            (
                1,
                Rmessage::Attach(Rattach { qid }),
                framed(105, 1, qid_bytes),
            ),
            (7, Rmessage::Flush, b"\x07\0\0\0\x6d\x07\0".to_vec()),
            (3, Rmessage::Walk(Rwalk { wqids }), framed(111, 3, &walked)),
            (
                2,
                Rmessage::Open(Ropen { qid, iounit }),
                framed(113, 2, &opened),
            ),
            (
                3,
                Rmessage::Create(Rcreate { qid, iounit }),
                framed(115, 3, &opened),
            ),
            (
                8,
                Rmessage::Read(Rread { data }),
                b"\x0f\0\0\0\x75\x08\0\x04\0\0\0leap".to_vec(),
            ),
            (
                9,
                Rmessage::Write(Rwrite { count: 4 }),
                b"\x0b\0\0\0\x77\x09\0\x04\0\0\0".to_vec(),
            ),
            (10, Rmessage::Clunk, b"\x07\0\0\0\x79\x0a\0".to_vec()),
            (11, Rmessage::Remove, b"\x07\0\0\0\x7b\x0b\0".to_vec()),
            (5, Rmessage::Wstat, b"\x07\0\0\0\x7f\x05\0".to_vec()),
        ]
    }};
}

/// All that a frame is asked in either direction: it is read, refused as short wherever it is cut,
/// whatever its size says, read beside a tail, written, and refused where a byte of room is missing.
macro_rules! held_to {
    ($rows:expr, $read:expr, $write:expr) => {
        for (tag, msg, bytes) in $rows {
            let (size, read) = (bytes.len(), $read);
            assert_eq!(read(&bytes), Ok((Tag(tag), msg, size)), "{msg:?}");
            assert_eq!(msg.ty(), bytes[4], "{msg:?}");
            for cut in 0..size {
                assert_eq!(read(&bytes[..cut]), Err(Refusal::Short), "{msg:?} at {cut}");
                let mut resized = bytes[..cut].to_vec();
                if cut >= 7 {
                    resized[..4].copy_from_slice(&(cut as u32).to_le_bytes());
                    assert_eq!(read(&resized), Err(Refusal::Short), "{msg:?} of {cut}");
                }
            }
            let mut tailed = [&bytes[..], b"\xee\0\x01"].concat();
            tailed[..4].copy_from_slice(&(size as u32 + 3).to_le_bytes());
            assert_eq!(read(&tailed), Ok((Tag(tag), msg, size)), "{msg:?}");

            let mut out = [0xaa; 128];
            assert_eq!($write(tag, msg, &mut out), Ok(size), "{msg:?}");
            assert_eq!(out[..size], bytes, "{msg:?}");
            assert!(out[size..].iter().all(|byte| *byte == 0xaa), "{msg:?}");
            let mut room = vec![0xaa; size - 1];
            assert_eq!($write(tag, msg, &mut room), Err(Refusal::NoRoom), "{msg:?}");
            assert!(room.iter().all(|byte| *byte == 0xaa), "{msg:?}");
        }
    };
}

/// Both tests of each frame of a dialect, over its `requests` and `replies`.
macro_rules! each_frame_is_held {
    () => {
        fn read_t(bytes: &[u8]) -> Result<(Tag, Tmessage<'_>, usize), Refusal> {
            let read = Tframe::decode(bytes)?;
            Ok((read.frame.tag, read.frame.msg?, read.used))
        }

        fn read_r(bytes: &[u8]) -> Result<(Tag, Rmessage<'_>, usize), Refusal> {
            let read = Rframe::decode(bytes)?;
            Ok((read.frame.tag, read.frame.msg, read.used))
        }

        #[test]
        fn each_request_is_as_its_layout_has_it() {
            let mut types: Vec<u8> = requests().iter().map(|(_, _, bytes)| bytes[4]).collect();
            types.sort();
            let known = [
                100, 102, 104, 108, 110, 112, 114, 116, 118, 120, 122, 124, 126,
            ];
            assert_eq!(types, known);
            held_to!(requests(), read_t, |tag, msg, out: &mut [u8]| {
                let frame = Tframe {
                    tag: Tag(tag),
                    msg: Ok(msg),
                };
                let wrote = frame.encode(out);
                if wrote.is_ok() {
                    assert_eq!(frame.byte_size(), wrote);
                }
                wrote
            });
        }

        #[test]
        fn each_reply_is_as_its_layout_has_it() {
            let mut types: Vec<u8> = replies().iter().map(|(_, _, bytes)| bytes[4]).collect();
            types.sort();
            let known = [
                101, 103, 105, 107, 109, 111, 113, 115, 117, 119, 121, 123, 125, 127,
            ];
            assert_eq!(types, known);
            held_to!(replies(), read_r, |tag, msg, out: &mut [u8]| {
                let frame = Rframe { tag: Tag(tag), msg };
                let wrote = frame.encode(out);
                if wrote.is_ok() {
                    assert_eq!(frame.byte_size(), wrote);
                }
                wrote
            });
        }
    };
}

/// An exchange as a client and a server have it: what each frame is, and which request it answers. It ends
/// with an open that fails, `$error` by hand.
macro_rules! an_exchange_is_held {
    ($error:expr, $by_hand:expr) => {
        #[test]
        fn an_exchange_is_written_read_listed_and_paired() {
            let (mut stream, mut buffer) = (Vec::new(), [0; 128]);
            let (mut bytes, mut marks) = (Vec::new(), Vec::new());
            // version, attach, walk, open, read, stat, wstat, create, clunk; and an open that fails.
            for ty in [100, 104, 110, 112, 116, 124, 126, 114, 120] {
                let mut asked = requests().into_iter();
                let (tag, msg, by_hand) = asked.find(|row| row.2[4] == ty).unwrap();
                bytes.extend(by_hand);
                let (tag, msg) = (Tag(tag), Ok(msg));
                let request = Tframe { tag, msg };
                request.encode_to(&mut stream, &mut buffer).unwrap();

                let mut told = replies().into_iter();
                let (_, msg, mut by_hand) = told.find(|row| row.2[4] == ty + 1).unwrap();
                by_hand[5..7].copy_from_slice(&tag.0.to_le_bytes());
                bytes.extend(by_hand);
                let reply = Rframe { tag, msg };
                reply.encode_to(&mut stream, &mut buffer).unwrap();
                marks.extend([(ty, tag.0), (ty + 1, tag.0)]);
            }
            bytes.extend(b"\x0c\0\0\0\x70\x0c\0\x01\0\0\0\0");
            bytes.extend($by_hand);
            let open = Topen {
                fid: Fid(1),
                mode: 0,
            };
            let (tag, msg) = (Tag(12), Ok(Tmessage::Open(open)));
            Tframe { tag, msg }
                .encode_to(&mut stream, &mut buffer)
                .unwrap();
            let msg = Rmessage::Error($error);
            Rframe { tag, msg }
                .encode_to(&mut stream, &mut buffer)
                .unwrap();
            marks.extend([(112, 12), (107, 12)]);
            assert_eq!(stream, bytes);

            let listed: Vec<Listed> = stretch(&stream).collect::<Result<_, Stop>>().unwrap();
            let seen: Vec<_> = listed.iter().map(|frame| (frame.ty, frame.tag.0)).collect();
            assert_eq!(seen, marks);
            assert!(listed
                .iter()
                .all(|frame| frame.tail == 0 && frame.body.refusal().is_none()));
            for (i, request) in listed.iter().enumerate().step_by(2) {
                for (j, reply) in listed.iter().enumerate() {
                    let paired = answers(request.mark(), reply.mark());
                    let of_one_tag = request.tag == reply.tag;
                    let owed = of_one_tag && (reply.ty == request.ty + 1 || reply.ty == 107);
                    assert_eq!(paired, owed, "{i} {j}");
                    assert!(j != i + 1 || paired, "{i}");
                }
            }
            let error = listed.last().unwrap();
            assert_eq!(error.body, Body::Reply(Ok(msg)));
            assert!(stretch(&stream[..stream.len() - 1])
                .last()
                .unwrap()
                .is_err());
        }
    };
}

pub(crate) use {
    an_exchange_is_held, each_frame_is_held, held_to, shared_replies, shared_requests,
};
