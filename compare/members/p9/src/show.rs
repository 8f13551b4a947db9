//! One exact text per record, to be compared by machine.
//!
//! Numbers are decimal. Strings and data are lower-case hex, and `-` where they are empty, so
//! that a vector of one empty name (`[-]`) differs from an empty vector (`[]`).

use crate::protocol::{Data, P9String, Rmessage, Tmessage};

pub trait Show {
    fn show(&self, out: &mut String);
}

/// A record by itself shows its name first; as a field of another one it doesn't.
pub trait Record: Show {
    const NAME: &'static str;
}

pub fn shown(value: &impl Show) -> String {
    let mut out = String::new();
    value.show(&mut out);
    out
}

pub fn hex(bytes: &[u8]) -> String {
    let digit = |half: u8| char::from(b"0123456789abcdef"[usize::from(half)]);
    let pairs = bytes
        .iter()
        .map(|byte| [digit(byte >> 4), digit(byte & 15)]);
    pairs.flatten().collect()
}

/// Called by what the derive writes.
pub fn fields(pairs: &[(&str, &dyn Show)], out: &mut String) {
    out.push('(');
    for (place, (name, value)) in pairs.iter().enumerate() {
        if place > 0 {
            out.push(',');
        }
        out.push_str(name);
        out.push('=');
        value.show(out);
    }
    out.push(')');
}

fn named<R: Record>(record: &R, out: &mut String) {
    out.push_str(R::NAME);
    record.show(out);
}

fn bytes(bytes: &[u8], out: &mut String) {
    match bytes {
        [] => out.push('-'),
        _ => out.push_str(&hex(bytes)),
    }
}

macro_rules! show_numbers {
    ($($number:ty)*) => {
        $(impl Show for $number {
            fn show(&self, out: &mut String) {
                out.push_str(&self.to_string());
            }
        })*
    };
}

show_numbers!(u8 u16 u32 u64);

impl Show for P9String {
    fn show(&self, out: &mut String) {
        bytes(self.as_bytes(), out);
    }
}

impl Show for Data {
    fn show(&self, out: &mut String) {
        bytes(self, out);
    }
}

impl<T: Show> Show for Vec<T> {
    fn show(&self, out: &mut String) {
        out.push('[');
        for (place, element) in self.iter().enumerate() {
            if place > 0 {
                out.push(',');
            }
            element.show(out);
        }
        out.push(']');
    }
}

macro_rules! show_message {
    ($message:ident, full: $($full:ident)*, empty: $($empty:ident $name:literal)*) => {
        impl Show for $message {
            fn show(&self, out: &mut String) {
                match self {
                    $($message::$full(record) => named(record, out),)*
                    $($message::$empty => out.push_str(concat!($name, "()")),)*
                }
            }
        }
    };
}

for_tmessage!(show_message);
for_rmessage!(show_message);
