//! A real session, cut into frames by their sizes: each is read, and written again byte for byte.

use sheafsledge::stream::{Frames, Next};
use sheafsledge::{Rframe, Tframe};

const SESSION: &[u8] = include_bytes!("../../examples/diod-session.bin");

/// Even types are requests.
fn again(frame: &[u8], out: &mut [u8]) -> Result<usize, sheafsledge::Refusal> {
    match frame[4] % 2 {
        0 => Tframe::decode(frame)?.frame.encode(out),
        _ => Rframe::decode(frame)?.frame.encode(out),
    }
}

#[test]
fn every_frame_comes_back() {
    let mut stream = Frames::new(SESSION, 65_536);
    let mut out = [0; 65_536];
    let mut frames = 0;
    while let Next::Frame(frame) = stream.next_frame().expect("whole frames") {
        let len = again(frame, &mut out).expect("a sound frame");
        assert_eq!(&out[..len], frame, "frame {frames}");
        frames += 1;
    }
    assert_eq!(frames, 224);
}
