//! Numbers that must not be taken for one another: a group number does not fit where a fid is meant.

use core::fmt;

macro_rules! ids {
    ($($(#[$doc:meta])* $name:ident($number:ty))*) => {
        $(
            $(#[$doc])*
            #[derive(Clone, Copy, Debug, Default, PartialEq, Eq, PartialOrd, Ord, Hash)]
            pub struct $name(
                /// The number on the wire.
                pub $number,
            );

            impl From<$number> for $name {
                #[inline]
                fn from(number: $number) -> Self {
                    Self(number)
                }
            }

            impl From<$name> for $number {
                #[inline]
                fn from(id: $name) -> Self {
                    id.0
                }
            }

            impl fmt::Display for $name {
                fn fmt(&self, f: &mut fmt::Formatter) -> fmt::Result {
                    fmt::Display::fmt(&self.0, f)
                }
            }
        )*
    };
}

ids! {
    /// What a client calls a file.
    ///
    /// ```compile_fail,E0308
    /// use sheafsledge::{Gid, Tclunk};
    /// let group = Gid(100);
    /// let clunk = Tclunk { fid: group };
    /// ```
    Fid(u32)

    /// What joins a reply to its request.
    Tag(u16)

    /// A group of users.
    Gid(u32)
}

impl Fid {
    /// Stands where a client has no fid, as for authentication in a Tattach.
    pub const NONE: Self = Self(u32::MAX);
}

impl Tag {
    /// The tag of a Tversion and its reply.
    pub const NONE: Self = Self(u16::MAX);
}
