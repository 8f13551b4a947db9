//! The records, each beside the crate's of the same name.

use std::cell::OnceCell;
use std::io;

use sheafsledge::{Data as Lent, Fid, Gid, Names, Qids, Tag, Text};

use super::strings::{Data, P9String};

/// Where elements of a walk lie while a frame is written.
#[derive(Default)]
pub struct Room<'a> {
    names: OnceCell<Vec<&'a str>>,
    qids: OnceCell<Vec<sheafsledge::Qid>>,
}

/// A field beside the crate's.
pub trait Field<'a, Ours>: Sized {
    fn owned(ours: Ours) -> Self;
    fn lent(&'a self, room: &'a Room<'a>) -> io::Result<Ours>;
}

macro_rules! fields {
    ($($mine:ty, $ours:ty: |$read:ident| $owned:expr, |$it:ident, $room:pat_param| $lent:expr;)*) => {
        $(impl<'a> Field<'a, $ours> for $mine {
            #[inline(always)]
            fn owned($read: $ours) -> Self {
                $owned
            }

            #[inline(always)]
            fn lent(&'a self, $room: &'a Room<'a>) -> io::Result<$ours> {
                let $it = self;
                Ok($lent)
            }
        })*
    };
}

fields! {
    u8, u8: |ours| ours, |mine, _| *mine;
    u32, u32: |ours| ours, |mine, _| *mine;
    u64, u64: |ours| ours, |mine, _| *mine;
    u32, Fid: |ours| ours.0, |mine, _| Fid(*mine);
    u32, Gid: |ours| ours.0, |mine, _| Gid(*mine);
    u16, Tag: |ours| ours.0, |mine, _| Tag(*mine);
    P9String, Text<'a>: |ours| P9String::read(ours), |mine, _| mine.text()?;
    Data, Lent<'a>: |ours| Data(ours.to_vec()), |mine, _| Lent(mine);
    Qid, sheafsledge::Qid: |ours| Qid { ty: ours.ty, version: ours.version, path: ours.path },
        |mine, _| sheafsledge::Qid { ty: mine.ty, version: mine.version, path: mine.path };
    Vec<P9String>, Names<'a>: |ours| ours.iter().map(P9String::read).collect(), |mine, room| {
        let names = mine.iter().map(|name| Ok(name.text()?.as_str()));
        let names = names.collect::<io::Result<_>>()?;
        Names::of(room.names.get_or_init(|| names))?
    };
    Vec<Qid>, Qids<'a>: |ours| ours.iter().map(Qid::owned).collect(), |mine, room| {
        let qids = mine.iter().map(|qid| qid.lent(room));
        let qids = qids.collect::<io::Result<_>>()?;
        Qids::from(&room.qids.get_or_init(|| qids)[..])
    };
}

/// A file as a server calls it. A type of this crate, so that a server can add to it.
#[derive(Clone, Copy, Debug, PartialEq, Eq)]
pub struct Qid {
    pub ty: u8,
    pub version: u32,
    pub path: u64,
}

#[derive(Debug)]
pub struct Dirent {
    pub qid: Qid,
    pub offset: u64,
    pub ty: u8,
    pub name: P9String,
}

#[derive(Debug)]
pub struct Tframe {
    pub tag: u16,
    pub msg: io::Result<Tmessage>,
}

#[derive(Debug)]
pub struct Rframe {
    pub tag: u16,
    pub msg: Rmessage,
}

macro_rules! record {
    ($name:ident, $ours:ty { $($field:ident: $kind:ty,)* }) => {
        #[derive(Debug)]
        pub struct $name {
            $(pub $field: $kind,)*
        }

        impl<'a> Field<'a, $ours> for $name {
            #[inline(always)]
            fn owned(ours: $ours) -> Self {
                Self { $($field: Field::owned(ours.$field),)* }
            }

            #[inline(always)]
            fn lent(&'a self, room: &'a Room<'a>) -> io::Result<$ours> {
                let _ = room;
                Ok(sheafsledge::$name { $($field: self.$field.lent(room)?,)* })
            }
        }
    };
}

macro_rules! message {
    (
        $(#[$doc:meta])* $message:ident
        $($ty:literal $case:ident: $record:ident $(<$a:lifetime>)? { $($field:ident: $kind:ty,)* })*
        empty: $($number:literal $empty:ident: $name:ident)*
    ) => {
        $(record!($record, sheafsledge::$record $(<$a>)? { $($field: $kind,)* });)*

        $(#[$doc])*
        #[derive(Debug)]
        pub enum $message {
            $($case($record),)*
            $($empty,)*
        }

        impl $message {
            /// The crate's message, if it is one that needs no more than its type.
            #[inline(always)]
            pub fn without_fields(&self) -> Option<sheafsledge::$message<'static>> {
                match self {
                    $(Self::$empty => Some(sheafsledge::$message::$empty),)*
                    _ => None,
                }
            }

            /// What is made of the message, in the arm that has it: what is built of it afterwards
            /// would be a copy of all its bytes.
            #[inline(always)]
            pub fn owned<A>(ours: sheafsledge::$message, made: impl Fn(Self) -> A) -> A {
                match ours {
                    $(sheafsledge::$message::$case(ours) => made(Self::$case(Field::owned(ours))),)*
                    $(sheafsledge::$message::$empty => made(Self::$empty),)*
                }
            }

            #[inline(always)]
            pub fn lent<'a>(
                &'a self,
                room: &'a Room<'a>,
            ) -> io::Result<sheafsledge::$message<'a>> {
                Ok(match self {
                    $(Self::$case(mine) => sheafsledge::$message::$case(mine.lent(room)?),)*
                    $(Self::$empty => sheafsledge::$message::$empty,)*
                })
            }
        }
    };
}

include!("rows.rs");
