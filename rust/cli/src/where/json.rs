//! An object for each string that breaks, and the last one of `list`.

use std::ffi::OsStr;

use crate::dialect::Dialect;
use crate::list::{self, Form, Summary};
use crate::recording::{Broken, Ended, Row};

use super::hex;

pub struct Json<D> {
    list: list::Json<D>,
    broken: u64,
}

impl<D: Dialect> Json<D> {
    pub fn of(file: &OsStr) -> Self {
        let (list, broken) = (list::Json::of(file), 0);
        Self { list, broken }
    }
}

impl<D: Dialect> Form for Json<D> {
    type Dialect = D;

    fn begin(&mut self, _: Option<&str>, _: &mut Vec<u8>) {}

    fn row(&mut self, row: &Row, _: &mut Vec<u8>) {
        self.broken += u64::from(row.breaks());
    }

    fn broken(&mut self, broken: &Broken, text: &mut Vec<u8>) {
        let row = &broken.row;
        let numbers = [
            (",\"at\":", row.at),
            (",\"answer\":", u64::from(row.answer())),
            (",\"place\":", broken.place),
        ];
        self.list.open(text, &numbers);
        for (key, bytes) in [
            (",\"before\":\"", broken.before()),
            ("\",\"byte\":\"", &[broken.byte()]),
            ("\",\"after\":\"", broken.after()),
        ] {
            text.extend_from_slice(key.as_bytes());
            hex(text, bytes);
        }
        text.push(b'"');
        self.list.close(text, row);
    }

    fn end(&mut self, ended: &Ended, frames: u64, text: &mut Vec<u8>) {
        self.list.end(ended, frames, text);
    }

    fn summed(&self, summary: &mut Summary) {
        summary.broken(self.broken);
    }
}
