//! The records that 9P2000 has for itself, and its two enums.

use crate::fields::{fill, Field, Filling, Taken};
use crate::places::Named;
use crate::records::Onward;
use crate::{
    Fid, Qid, Rattach, Rauth, Refusal, Rread, Rversion, Rwalk, Rwrite, Tclunk, Text, Tflush, Tread,
    Tremove, Tversion, Twalk, Twrite,
};

// Its count and its size are before it.
record!(Stat<'a> after 4 {
    ty: u16, dev: u32, qid: Qid, mode: u32, atime: u32, mtime: u32, length: u64, name: Text<'a>,
    uid: Text<'a>, gid: Text<'a>, muid: Text<'a>,
});

include!("rows.rs");

/// What a message type is called in 9P2000, in either direction; none if it is unknown there.
///
/// ```
/// use sheafsledge::plain::message_name;
/// assert_eq!(message_name(112), Some("Topen"));
/// assert_eq!(message_name(107), Some("Rerror"));
/// assert_eq!(message_name(7), None);
/// ```
pub fn message_name(ty: u8) -> Option<&'static str> {
    Tmessage::name_of(ty).or_else(|| Rmessage::name_of(ty))
}
