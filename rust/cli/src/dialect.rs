//! Which dialect recordings are in. Whoever calls says so: no byte of a recording does.

use sheafsledge::any::{Held, Listed, Stretch};
use sheafsledge::{Mark, Refusal, Tag};

use crate::input::shown;
use crate::status::Failure;
use crate::words::{Opt, Words};

pub const DIALECT: Opt = Opt {
    long: "dialect",
    short: None,
    value: Some("NAME"),
    says: "the dialect of the frames: 9P2000.L, as without it,\n9P2000 or 9P2000.u",
};

pub trait Dialect: 'static {
    /// What a frame holds.
    type Body<'a>: Held<'a>;
    fn stretch(bytes: &[u8]) -> Stretch<'_, Self::Body<'_>>;
    /// What a frame holds, by its first bytes, and how many of them are used; none where it is refused.
    fn body(ty: u8, bytes: &[u8]) -> (Self::Body<'_>, Option<usize>);
    fn answers(request: Mark, reply: Mark) -> bool;

    /// What a type is called; none if it is unknown.
    fn name(ty: u8) -> Option<&'static str> {
        Self::Body::name_of(ty)
    }

    /// A frame by its first bytes, at least a header. If these are too few it is refused as short; any
    /// other answer is that of the whole frame, since its fields are read in their order.
    fn front(bytes: &[u8], size: usize) -> Listed<Self::Body<'_>> {
        let (ty, tag) = (bytes[4], Tag(u16::from_le_bytes([bytes[5], bytes[6]])));
        let (body, used) = Self::body(ty, bytes);
        let (at, tail, next) = (0, used.map_or(0, |used| size - used), size);
        Listed {
            at,
            size,
            ty,
            tag,
            body,
            tail,
            next,
        }
    }
}

macro_rules! dialects {
    ($($(#[$doc:meta])* $dialect:ident: $($path:ident)::+;)*) => {
        $(
            $(#[$doc])*
            pub struct $dialect;

            impl Dialect for $dialect {
                type Body<'a> = $($path)::+::Body<'a>;

                #[inline(always)]
                fn stretch(bytes: &[u8]) -> Stretch<'_, Self::Body<'_>> {
                    $($path)::+::stretch(bytes)
                }

                fn body(ty: u8, bytes: &[u8]) -> (Self::Body<'_>, Option<usize>) {
                    use $($path)::+::{Body, Rframe, Tframe};
                    match ty % 2 {
                        0 => {
                            let read = Tframe::decode(bytes);
                            let msg = read.and_then(|read| Ok((read.frame.msg?, read.used)));
                            let (msg, used) = parted(msg);
                            (Body::Request(msg), used)
                        }
                        _ => {
                            let msg = Rframe::decode(bytes).map(|read| (read.frame.msg, read.used));
                            let (msg, used) = parted(msg);
                            (Body::Reply(msg), used)
                        }
                    }
                }

                fn answers(request: Mark, reply: Mark) -> bool {
                    $($path)::+::answers(request, reply)
                }
            }
        )*
    };
}

dialects! {
    /// 9P2000.L.
    L: sheafsledge;
    /// 9P2000.
    Plain: sheafsledge::plain;
    /// 9P2000.u.
    Unix: sheafsledge::unix;
}

/// A message, and how many bytes it uses.
fn parted<M>(read: Result<(M, usize), Refusal>) -> (Result<M, Refusal>, Option<usize>) {
    let used = read.as_ref().ok().map(|(_, used)| *used);
    (read.map(|(msg, _)| msg), used)
}

/// What there is for the dialect that is named, of 9P2000.L, 9P2000 and 9P2000.u; without one the first.
pub fn of<T>(words: &Words, [l, plain, unix]: [T; 3]) -> Result<T, Failure> {
    match words.value(DIALECT.long) {
        None => Ok(l),
        Some(name) if name == "9P2000.L" => Ok(l),
        Some(name) if name == "9P2000" => Ok(plain),
        Some(name) if name == "9P2000.u" => Ok(unix),
        Some(name) => {
            let name = shown(name);
            Err(words.wrong(format!(
                "unknown dialect '{name}': it is 9P2000.L, 9P2000 or 9P2000.u"
            )))
        }
    }
}
