//! One frame of 9P2000.u, read from bytes and written into bytes. What is read borrows from the bytes.

use crate::boundary::{PLAIN_R_VALUES, PLAIN_T_VALUES};
use crate::ffi::unix as ffi;
use crate::unix::{Rmessage, Tmessage};

crate::frames::frames! {
    /// A request of 9P2000.u: its tag beside a message or a refusal.
    Tframe in PLAIN_T_VALUES, ffi::read_t;
    /// Reads the request at the front of some bytes, as [`crate::Tframe::decode`] does in 9P2000.L.
    decode;
    /// How long the frame is that [`Tframe::encode`] writes, or its refusal where the output has
    /// room enough.
    byte_size;

    /// A reply of 9P2000.u.
    Rframe in PLAIN_R_VALUES, ffi::read_r;
    /// Reads the reply at the front of some bytes, as [`crate::Rframe::decode`] does in 9P2000.L.
    ///
    /// ```
    /// use sheafsledge::unix::{Rerror, Rframe, Rmessage};
    /// use sheafsledge::{Tag, Text};
    /// let read = Rframe::decode(b"\x0f\0\0\0\x6b\x03\0\x02\0no\x02\0\0\0")?;
    /// assert_eq!((read.frame.tag, read.used), (Tag(3), 15));
    /// let error = Rerror { ename: Text::from_static("no"), errno: 2 };
    /// assert_eq!(read.frame.msg, Rmessage::Error(error));
    /// # Ok::<(), sheafsledge::Refusal>(())
    /// ```
    decode;
    /// How long the frame is that [`Rframe::encode`] writes, or its refusal where the output has
    /// room enough.
    byte_size;
    /// Writes the reply to a stream in one call, by way of a buffer that the caller keeps, and
    /// answers its length. Refused, nothing is written.
    encode_to;
}

// The strings of a stat are the most that a message has.
crate::older::encodes!(ffi::write_t, ffi::write_r, 5);

#[cfg(test)]
mod tests {
    use super::Rframe;
    use crate::unix::{Rmessage, Rstat, Stat};
    use crate::{Qid, Refusal, Tag, Text};

    /// No `Text` of a caller's is refused, so these are such as the library would not have accepted.
    #[test]
    fn a_place_is_told_in_its_own_string() {
        let refused = |strings: [&str; 5]| {
            let [name, uid, gid, muid, extension] = strings.map(Text::accepted);
            let stat = Stat {
                ty: 0,
                dev: 0,
                qid: Qid::default(),
                mode: 0,
                atime: 0,
                mtime: 0,
                length: 0,
                name,
                uid,
                gid,
                muid,
                extension,
                n_uid: 0,
                n_gid: 0,
                n_muid: 0,
            };
            let msg = Rmessage::Stat(Rstat { stat });
            Rframe { tag: Tag(1), msg }.encode(&mut [0; 256])
        };
        let zero = |at| Err(Refusal::ZeroByte { at });
        assert_eq!(refused(["a", "bc", "", "d", "ef\0\0"]), zero(2));
        assert_eq!(refused(["a", "", "", "d\0", "\0"]), zero(1));
        assert_eq!(refused(["", "", "", "", "\0"]), zero(0));
    }
}
