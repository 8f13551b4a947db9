//! The paper's number for an error of the seller's.

use std::io::{Error, ErrorKind};

/// The kind alone would leave 2, 3, 4 and 16 as one, and 5, 6, 7 and 8 as another.
const TOLD_BY_TEXT: [(u8, ErrorKind, &str); 8] = [
    (2, ErrorKind::InvalidData, "less than 4"),
    (3, ErrorKind::InvalidData, "unknown message"),
    (4, ErrorKind::InvalidData, "data length"),
    (5, ErrorKind::InvalidInput, "utf-8"),
    (6, ErrorKind::InvalidInput, "nul byte"),
    (7, ErrorKind::InvalidInput, "string is too"),
    (8, ErrorKind::InvalidInput, "too many elements"),
    (16, ErrorKind::InvalidData, "invalid msg"),
];

/// `None` where the paper has no number that the Rust's error could tell.
pub fn number(error: &Error) -> Option<u8> {
    if error.kind() == ErrorKind::UnexpectedEof {
        return Some(1);
    }
    let text = error.to_string();
    let tells = |kind: ErrorKind, part: &str| error.kind() == kind && text.contains(part);
    let row = TOLD_BY_TEXT.iter().find(|row| tells(row.1, row.2));
    row.map(|row| row.0)
}

/// The number as it is printed.
pub fn digits(error: &Error) -> String {
    number(error).map_or("?".into(), |number| number.to_string())
}

pub fn told_by(error: &Error) -> String {
    format!("kind={:?} text={:?}", error.kind(), error.to_string())
}
