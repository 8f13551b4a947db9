//! The records that 9P2000.u has for itself, and its two enums.

use crate::fields::{fill, Field, Filling, Taken};
use crate::places::Named;
use crate::plain::{Rcreate, Ropen, Topen, Tstat};
use crate::records::Onward;
use crate::{
    Fid, Qid, Rattach, Rauth, Refusal, Rread, Rversion, Rwalk, Rwrite, Tattach, Tauth, Tclunk,
    Text, Tflush, Tread, Tremove, Tversion, Twalk, Twrite,
};

// Its count and its size are before it.
record!(Stat<'a> after 4 {
    ty: u16, dev: u32, qid: Qid, mode: u32, atime: u32, mtime: u32, length: u64, name: Text<'a>,
    uid: Text<'a>, gid: Text<'a>, muid: Text<'a>, extension: Text<'a>, n_uid: u32, n_gid: u32,
    n_muid: u32,
});

include!("rows.rs");

/// What a message type is called in 9P2000.u, in either direction; none if it is unknown there.
///
/// ```
/// use sheafsledge::unix::message_name;
/// assert_eq!(message_name(114), Some("Tcreate"));
/// assert_eq!(message_name(107), Some("Rerror"));
/// assert_eq!(message_name(7), None);
/// ```
pub fn message_name(ty: u8) -> Option<&'static str> {
    Tmessage::name_of(ty).or_else(|| Rmessage::name_of(ty))
}
