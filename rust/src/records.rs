//! The records under the seller's names, and the two enums that hold them.

use crate::fields::{fill, Field, Filling, Taken};
use crate::places::Named;
use crate::walks::{Names, Qids};
use crate::{Data, Fid, Gid, Qid, Refusal, Tag, Text};

/// A record's fields cross in declared order, which is the layout's. A stat stands after some bytes that
/// are counted anew each time.
macro_rules! record {
    ($name:ident $(<$a:lifetime>)? $(after $counts:literal)? { $($field:ident: $kind:ty,)* }) => {
        #[doc = about!($name)]
        #[derive(Clone, Copy, Debug, PartialEq, Eq)]
        pub struct $name $(<$a>)? {
            $(
                #[doc = about!($name $field)]
                pub $field: $kind,
            )*
        }

        impl<'a> Field<'a> for $name $(<$a>)? {
            #[inline(always)]
            fn take(taken: &mut Taken<'a, '_>) -> Self {
                $(let $field = Field::take(taken);)*
                Self { $($field,)* }
            }

            #[inline(always)]
            fn put<const N: usize, const S: usize>(&self, put: &mut Filling<'_, 'a, N, S>) {
                $(self.$field.put(put);)*
            }

            fn size(&self) -> usize {
                0 $(+ $counts)? $(+ self.$field.size())*
            }
        }

        impl<'a> $name $(<$a>)? {
            /// Its field of that number, from 0 on.
            pub(crate) fn field(&self, number: usize) -> Option<Named<'a>> {
                let mut skipped = 0..number;
                $(if skipped.next().is_none() {
                    return Some(Named {
                        name: stringify!($field),
                        size: self.$field.size(),
                        value: self.$field.into(),
                    });
                })*
                None
            }
        }
    };
}

/// So many records.
macro_rules! records {
    ($($name:ident $(<$a:lifetime>)? { $($field:ident: $kind:ty,)* })*) => {
        $(record!($name $(<$a>)? { $($field: $kind,)* });)*
    };
}

/// What becomes of a message in the arm that makes it. There are too many arms for a closure to be
/// inlined in each.
pub(crate) trait Onward<M> {
    type Answer;
    fn on(self, msg: Result<M, Refusal>) -> Self::Answer;
}

/// An enum of records by type number; some replies hold none.
macro_rules! message {
    (
        $(#[$doc:meta])* $message:ident
        $($ty:literal $case:ident: $record:ident $(<$a:lifetime>)?)*
        empty: $($number:literal $empty:ident: $name:ident)*
    ) => {
        $(#[$doc])*
        #[derive(Clone, Copy, Debug, PartialEq, Eq)]
        pub enum $message<'a> {
            $(
                #[doc = about!($record)]
                $case($record $(<$a>)?),
            )*
            $(
                #[doc = about!($empty)]
                $empty,
            )*
        }

        impl<'a> $message<'a> {
            /// The message of a type, handed on in the arm that makes it: carried from answer to
            /// answer it would be copied each time.
            #[inline(always)]
            pub(crate) fn take<O: Onward<Self>>(
                ty: u8,
                taken: &mut Taken<'a, '_>,
                onward: O,
            ) -> O::Answer {
                match ty {
                    $($ty => onward.on(Ok(Self::$case(Field::take(taken)))),)*
                    $($number => onward.on(Ok(Self::$empty)),)*
                    _ => onward.on(Err(Refusal::UnknownType)),
                }
            }

            /// Its type, and the slices that its values' spans point into; the values are laid out
            /// where they are to be. All arms go on to one call of the library: with a call in each
            /// they would be too many to be inlined.
            #[inline(always)]
            pub(crate) fn put<const N: usize, const S: usize>(
                &self,
                values: &mut [u64; N],
            ) -> (u8, [&'a [u8]; S]) {
                match self {
                    $(Self::$case(record) => ($ty, fill(values, record)),)*
                    $(Self::$empty => ($number, fill(values, &())),)*
                }
            }

            /// Its type, if it holds no record, as no request does.
            #[inline(always)]
            #[allow(dead_code)]
            pub(crate) fn empty(&self) -> Option<u8> {
                match self {
                    $(Self::$empty => Some($number),)*
                    _ => None,
                }
            }

            /// How many bytes its fields are.
            pub(crate) fn size(&self) -> usize {
                match self {
                    $(Self::$case(record) => record.size(),)*
                    $(Self::$empty => ().size(),)*
                }
            }

            /// Its field of that number, from 0 on, in the layout's order.
            pub(crate) fn field(&self, number: usize) -> Option<Named<'a>> {
                match self {
                    $(Self::$case(record) => record.field(number),)*
                    $(Self::$empty => None,)*
                }
            }

            /// What a type is called, as `Twalk`; none if the direction has no such type.
            pub(crate) fn name_of(ty: u8) -> Option<&'static str> {
                match ty {
                    $($ty => Some(stringify!($record)),)*
                    $($number => Some(stringify!($name)),)*
                    _ => None,
                }
            }

            /// The message's type number.
            pub fn ty(&self) -> u8 {
                match self {
                    $(Self::$case(_) => $ty,)*
                    $(Self::$empty => $number,)*
                }
            }
        }
    };
}

include!("rows.rs");

/// What a message type is called, in either direction; none if it is unknown.
///
/// ```
/// use sheafsledge::message_name;
/// assert_eq!(message_name(110), Some("Twalk"));
/// assert_eq!(message_name(71), Some("Rlink"));
/// assert_eq!(message_name(106), None);
/// ```
pub fn message_name(ty: u8) -> Option<&'static str> {
    Tmessage::name_of(ty).or_else(|| Rmessage::name_of(ty))
}
