//! An object a line, with the file's name in each, so that listings can be joined.

use std::ffi::OsStr;
use std::fmt::Write;
use std::marker::PhantomData;

use sheafsledge::Refusal;

use crate::dialect::Dialect;
use crate::digits::push;
use crate::recording::{Ended, Row};

use super::form::Form;

pub struct Json<D> {
    /// `{"file":"NAME"`, what each object begins with.
    front: Vec<u8>,
    dialect: PhantomData<D>,
}

impl<D: Dialect> Json<D> {
    pub fn of(file: &OsStr) -> Self {
        let front = format!("{{\"file\":{}", quoted(&file.to_string_lossy()));
        let front = front.into_bytes();
        let dialect = PhantomData;
        Self { front, dialect }
    }

    /// What an object begins with, and its first numbers.
    pub fn open(&self, text: &mut Vec<u8>, numbers: &[(&str, u64)]) {
        text.extend_from_slice(&self.front);
        numbers.iter().for_each(|(key, n)| number(text, key, *n));
    }

    /// What a frame's object ends with: its name, and why it is refused.
    #[inline]
    pub fn close(&self, text: &mut Vec<u8>, row: &Row) {
        named(text, D::name(row.ty), row.refusal);
    }
}

impl<D: Dialect> Form for Json<D> {
    type Dialect = D;

    fn begin(&mut self, _: Option<&str>, _: &mut Vec<u8>) {}

    fn row(&mut self, row: &Row, text: &mut Vec<u8>) {
        let numbers = [
            (",\"at\":", row.at),
            (",\"size\":", row.size as u64),
            (",\"type\":", row.ty as u64),
            (",\"tag\":", row.tag as u64),
            (",\"answer\":", row.answer() as u64),
        ];
        self.open(text, &numbers);
        match row.refusal {
            Some(_) => text.extend_from_slice(b",\"tail\":null"),
            None => number(text, ",\"tail\":", row.tail as u64),
        }
        self.close(text, row);
    }

    fn end(&mut self, ended: &Ended, frames: u64, text: &mut Vec<u8>) {
        match *ended {
            Ended::Whole(bytes) => self.open(text, &[(",\"end\":", bytes)]),
            Ended::Stopped { at, refusal } => {
                let answer = refusal.number() as u64;
                self.open(text, &[(",\"stop\":", at), (",\"answer\":", answer)]);
                string(text, ",\"sentence\":", refusal.meaning());
            }
        }
        number(text, ",\"frames\":", frames);
        text.extend_from_slice(b"}\n");
    }
}

/// The end of an object: what a message is called, and why it is refused.
#[inline]
pub fn named(text: &mut Vec<u8>, name: Option<&str>, refusal: Option<Refusal>) {
    match name {
        Some(name) => string(text, ",\"name\":", name),
        None => text.extend_from_slice(b",\"name\":null"),
    }
    if let Some(refusal) = refusal {
        string(text, ",\"sentence\":", refusal.meaning());
    }
    text.extend_from_slice(b"}\n");
}

/// The key has its quotes, and the marks around them.
#[inline]
pub fn number(text: &mut Vec<u8>, key: &str, n: u64) {
    text.extend_from_slice(key.as_bytes());
    push(text, n);
}

/// Of a text that needs no escapes: the crate's names and sentences have none.
#[inline]
pub fn string(text: &mut Vec<u8>, key: &str, value: &str) {
    text.extend_from_slice(key.as_bytes());
    text.push(b'"');
    text.extend_from_slice(value.as_bytes());
    text.push(b'"');
}

/// As RFC 8259 wants it; control characters that it would let stand are escaped too.
pub fn quoted(text: &str) -> String {
    let mut quoted = String::from("\"");
    for letter in text.chars() {
        match letter {
            '"' | '\\' => quoted.extend(['\\', letter]),
            _ if letter.is_control() => {
                // All of them are below U+10000. Writing into a string can't fail.
                let _ = write!(quoted, "\\u{:04x}", letter as u32);
            }
            _ => quoted.push(letter),
        }
    }
    quoted + "\""
}

#[cfg(test)]
mod tests {
    use super::quoted;

    #[test]
    fn names_are_escaped() {
        for (text, told) in [
            ("a.bin", r#""a.bin""#),
            ("\"\\/", r#""\"\\/""#),
            ("\n\u{1b}\u{7f}\u{9f}", r#""\u000a\u001b\u007f\u009f""#),
            ("höhe\u{10ffff}\u{fffd}", "\"höhe\u{10ffff}\u{fffd}\""),
        ] {
            assert_eq!(quoted(text), told);
        }
    }
}
