//! A record as the list of its values, in declared order.

use crate::protocol::{Data, P9String, Qid, Rmessage, Tmessage};

/// A number has its width in bytes; a qid is three numbers, but for those of a vector.
#[derive(Clone, Copy)]
pub enum Value<'a> {
    Number(u64, usize),
    String(&'a [u8]),
    Data(&'a [u8]),
    Names(&'a [P9String]),
    Qids(&'a [Qid]),
}

pub trait Flat {
    fn flat<'a>(&'a self, values: &mut Vec<Value<'a>>);
}

macro_rules! flat_numbers {
    ($($number:ty)*) => {
        $(impl Flat for $number {
            fn flat<'a>(&'a self, values: &mut Vec<Value<'a>>) {
                values.push(Value::Number(u64::from(*self), size_of::<$number>()));
            }
        })*
    };
}

flat_numbers!(u8 u16 u32 u64);

impl Flat for P9String {
    fn flat<'a>(&'a self, values: &mut Vec<Value<'a>>) {
        values.push(Value::String(self.as_bytes()));
    }
}

impl Flat for Data {
    fn flat<'a>(&'a self, values: &mut Vec<Value<'a>>) {
        values.push(Value::Data(self));
    }
}

impl Flat for Vec<P9String> {
    fn flat<'a>(&'a self, values: &mut Vec<Value<'a>>) {
        values.push(Value::Names(self));
    }
}

impl Flat for Vec<Qid> {
    fn flat<'a>(&'a self, values: &mut Vec<Value<'a>>) {
        values.push(Value::Qids(self));
    }
}

macro_rules! flat_message {
    ($message:ident, full: $($full:ident)*, empty: $($empty:ident $name:literal)*) => {
        impl Flat for $message {
            fn flat<'a>(&'a self, values: &mut Vec<Value<'a>>) {
                match self {
                    $($message::$full(record) => record.flat(values),)*
                    $($message::$empty => {})*
                }
            }
        }
    };
}

for_tmessage!(flat_message);
for_rmessage!(flat_message);
