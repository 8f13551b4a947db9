//! An object for each part, and the last one of `list`.

use std::ffi::OsStr;

use sheafsledge::{Qid, Value};

use crate::dialect::Dialect;
use crate::list::json::{named, number, quoted, string};
use crate::list::{self, Form};
use crate::recording::Ended;

use super::parts::{Holds, Part, PartForm};

pub struct Json<D>(list::Json<D>);

impl<D: Dialect> Json<D> {
    pub fn of(file: &OsStr) -> Self {
        Self(list::Json::of(file))
    }
}

impl<D: Dialect> PartForm for Json<D> {
    type Dialect = D;

    fn begin(&mut self, _: Option<&str>, _: &mut Vec<u8>) {}

    fn part(&mut self, part: &Part, text: &mut Vec<u8>) {
        self.0.open(text, &[(",\"at\":", part.at)]);
        match part.ty {
            Some(ty) => number(text, ",\"type\":", u64::from(ty)),
            None => text.extend_from_slice(b",\"type\":null"),
        }
        string(text, ",\"field\":", part.name);
        number(text, ",\"start\":", part.start);
        number(text, ",\"length\":", part.len);
        holds(part, text);
        let refusal = match part.holds {
            Holds::Refused(refusal) => Some(refusal),
            _ => None,
        };
        named(text, part.ty.and_then(D::name), refusal);
    }

    fn end(&mut self, ended: &Ended, frames: u64, text: &mut Vec<u8>) {
        self.0.end(ended, frames, text);
    }
}

fn holds(part: &Part, text: &mut Vec<u8>) {
    let held = match part.holds {
        Holds::Header(size, ty, tag) => {
            format!("{{\"size\":{size},\"type\":{ty},\"tag\":{tag}}}")
        }
        Holds::Tail => return number(text, ",\"bytes\":", part.len),
        Holds::Refused(refusal) => {
            number(text, ",\"answer\":", u64::from(refusal.number()));
            if let Some(place) = refusal.at() {
                number(text, ",\"place\":", place as u64);
            }
            return;
        }
        Holds::Value(Value::Data(data)) => return number(text, ",\"bytes\":", data.len() as u64),
        Holds::Value(value) => said(value),
    };
    text.extend_from_slice(b",\"value\":");
    text.extend_from_slice(held.as_bytes());
}

fn said(value: Value) -> String {
    match value {
        Value::Number(number) => number.to_string(),
        Value::Text(held) => quoted(&held),
        Value::Names(names) => array(names.iter().map(|name| quoted(&name))),
        Value::Qids(qids) => array(qids.iter().map(object)),
        Value::Qid(qid) => object(qid),
        Value::Data(data) => data.len().to_string(),
        Value::Stat(_) | Value::UnixStat(_) => {
            let part = |(name, value)| format!("\"{name}\":{}", said(value));
            format!("{{{}}}", joined(value.parts().map(part)))
        }
    }
}

fn array(elements: impl Iterator<Item = String>) -> String {
    format!("[{}]", joined(elements))
}

fn joined(elements: impl Iterator<Item = String>) -> String {
    elements.collect::<Vec<_>>().join(",")
}

fn object(Qid { ty, version, path }: Qid) -> String {
    format!("{{\"type\":{ty},\"version\":{version},\"path\":{path}}}")
}
