//! One frame of 9P2000, read from bytes and written into bytes. What is read borrows from the bytes.

use crate::boundary::{PLAIN_R_VALUES, PLAIN_T_VALUES};
use crate::ffi::plain as ffi;
use crate::plain::{Rmessage, Tmessage};

crate::frames::frames! {
    /// A request of 9P2000: its tag beside a message or a refusal.
    Tframe in PLAIN_T_VALUES, ffi::read_t;
    /// Reads the request at the front of some bytes, as [`crate::Tframe::decode`] does in 9P2000.L.
    ///
    /// ```
    /// use sheafsledge::plain::{Tframe, Tmessage, Topen};
    /// use sheafsledge::{Fid, Tag};
    /// let read = Tframe::decode(b"\x0c\0\0\0\x70\x02\0\x01\0\0\0\x01")?;
    /// assert_eq!(read.frame.tag, Tag(2));
    /// assert_eq!(read.frame.msg, Ok(Tmessage::Open(Topen { fid: Fid(1), mode: 1 })));
    /// # Ok::<(), sheafsledge::Refusal>(())
    /// ```
    decode;
    /// How long the frame is that [`Tframe::encode`] writes, or its refusal where the output has
    /// room enough.
    byte_size;

    /// A reply of 9P2000.
    Rframe in PLAIN_R_VALUES, ffi::read_r;
    /// Reads the reply at the front of some bytes, as [`crate::Rframe::decode`] does in 9P2000.L.
    decode;
    /// How long the frame is that [`Rframe::encode`] writes, or its refusal where the output has
    /// room enough.
    ///
    /// ```
    /// use sheafsledge::plain::{Rframe, Rmessage, Rstat, Stat};
    /// use sheafsledge::{Qid, Tag, Text};
    /// let [name, uid, gid, muid] = ["log", "glenda", "sys", ""].map(Text::from_static);
    /// let (ty, dev, qid, mode, atime, mtime) = (0, 0, Qid::default(), 0o644, 1, 2);
    /// let length = 512;
    /// let stat = Stat { ty, dev, qid, mode, atime, mtime, length, name, uid, gid, muid };
    /// let reply = Rframe { tag: Tag(1), msg: Rmessage::Stat(Rstat { stat }) };
    /// assert_eq!(reply.byte_size(), Ok(7 + 2 + 2 + 39 + 5 + 8 + 5 + 2));
    /// ```
    byte_size;
    /// Writes the reply to a stream in one call, by way of a buffer that the caller keeps, and
    /// answers its length. Refused, nothing is written.
    encode_to;
}

// The strings of a stat are the most that a message has.
crate::older::encodes!(ffi::write_t, ffi::write_r, 4);

#[cfg(test)]
mod tests {
    use super::Tframe;
    use crate::plain::{Stat, Tmessage, Twstat};
    use crate::{Fid, Qid, Refusal, Tag, Text};

    /// No `Text` of a caller's is refused, so these are such as the library would not have accepted.
    #[test]
    fn a_place_is_told_in_its_own_string() {
        let long = "a".repeat(600);
        let refused = |strings: [&str; 4]| {
            let [name, uid, gid, muid] = strings.map(Text::accepted);
            let stat = Stat {
                ty: 0,
                dev: 0,
                qid: Qid::default(),
                mode: 0,
                atime: 0,
                mtime: 0,
                length: 0,
                name,
                uid,
                gid,
                muid,
            };
            let msg = Ok(Tmessage::Wstat(Twstat { fid: Fid(1), stat }));
            Tframe { tag: Tag(1), msg }.encode(&mut [0; 2048])
        };
        let zero = |at| Err(Refusal::ZeroByte { at });
        for first in ["", "ab", &long] {
            assert_eq!(refused([first, "c\0d\0", "\0", ""]), zero(1));
            assert_eq!(refused([first, "", "\0", "\0"]), zero(0));
            assert_eq!(refused([first, "", "", "ab\0"]), zero(2));
            assert_eq!(refused(["c\0", first, "", "\0"]), zero(1));
        }
    }
}
