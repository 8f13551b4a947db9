//! The seller's values as the library takes and gives them: numbers, and spans of bytes.

use std::borrow::Cow;

use ours::{R_VALUES, UNWRITTEN};
use p9::draw::Draws;
use p9::flat::Value;
use p9::protocol::WireFormat;

/// Of a span: the bytes it shows, the width of the count before them on the wire, and how many
/// elements they are, for a vector.
pub enum Piece<'a> {
    Number(u64, usize),
    Span {
        bytes: Cow<'a, [u8]>,
        width: usize,
        elements: Option<u64>,
    },
}

impl<'a> From<Value<'a>> for Piece<'a> {
    fn from(value: Value<'a>) -> Self {
        match value {
            Value::Number(number, width) => Piece::Number(number, width),
            Value::String(bytes) => span(bytes, 2),
            Value::Data(bytes) => span(bytes, 4),
            Value::Names(names) => vector(names),
            Value::Qids(qids) => vector(qids),
        }
    }
}

pub fn pieces<'a>(record: &[Value<'a>]) -> Vec<Piece<'a>> {
    record.iter().map(|value| Piece::from(*value)).collect()
}

fn span(bytes: &[u8], width: usize) -> Piece<'_> {
    Piece::Span {
        bytes: bytes.into(),
        width,
        elements: None,
    }
}

fn vector<T: WireFormat>(all: &[T]) -> Piece<'static> {
    let mut bytes = Vec::new();
    for element in all {
        element.encode(&mut bytes).expect("a vector takes it");
    }
    Piece::Span {
        bytes: bytes.into(),
        width: 2,
        elements: Some(all.len() as u64),
    }
}

/// Where each piece starts in a frame: a span at its bytes, after their count.
pub fn in_a_frame(pieces: &[Piece]) -> Vec<usize> {
    let mut end = 7;
    let mut start = |before: usize, count: usize| {
        let start = end + before;
        end = start + count;
        start
    };
    let places = pieces.iter().map(|piece| match piece {
        Piece::Number(_, width) => start(0, *width),
        Piece::Span { bytes, width, .. } => start(*width, bytes.len()),
    });
    places.collect()
}

/// Bytes to lend that have each span somewhere, and where.
pub fn lent(pieces: &[Piece], draws: &mut Draws) -> (Vec<u8>, Vec<usize>) {
    let mut lent = Vec::new();
    let places = pieces.iter().map(|piece| {
        let gap = draws.below(4);
        lent.extend(draws.bytes(gap));
        let start = lent.len();
        if let Piece::Span { bytes, .. } = piece {
            lent.extend_from_slice(bytes);
        }
        start
    });
    let places = places.collect();
    (lent, places)
}

/// The values in the layout's order (F3.2), the spans at these places; those that the type does not
/// have stay unwritten.
pub fn values(pieces: &[Piece], places: &[usize]) -> [u64; R_VALUES] {
    let mut values = Vec::with_capacity(R_VALUES);
    for (piece, place) in pieces.iter().zip(places) {
        match piece {
            Piece::Number(number, _) => values.push(*number),
            Piece::Span {
                bytes, elements, ..
            } => {
                values.extend(elements);
                values.extend([*place as u64, bytes.len() as u64]);
            }
        }
    }
    values.resize(R_VALUES, UNWRITTEN);
    values.try_into().expect("no record has more values")
}

/// Whether the bytes at these places are what the spans show.
pub fn shown(pieces: &[Piece], places: &[usize], frame: &[u8]) -> bool {
    let mut all = pieces.iter().zip(places);
    all.all(|(piece, place)| match piece {
        Piece::Number(..) => true,
        Piece::Span { bytes, .. } => frame.get(*place..*place + bytes.len()) == Some(bytes),
    })
}

/// Where each field, count and element of a frame ends.
pub fn borders(values: &[Value]) -> Vec<usize> {
    let mut widths = vec![4, 1, 2];
    for value in values {
        match value {
            Value::Number(_, width) => widths.push(*width),
            Value::String(bytes) => widths.extend([2, bytes.len()]),
            Value::Data(bytes) => widths.extend([4, bytes.len()]),
            Value::Names(names) => {
                widths.push(2);
                widths.extend(names.iter().flat_map(|name| [2, name.len()]));
            }
            Value::Qids(qids) => {
                widths.push(2);
                widths.extend(qids.iter().flat_map(|_| [1, 4, 8]));
            }
        }
    }
    let ends = widths.iter().scan(0, |end, width| {
        *end += width;
        Some(*end)
    });
    ends.collect()
}
