//! What the caller gives, turned into a direction and bytes, or one line of what is wrong.

use judge::Direction;

pub fn line(text: &str) -> Result<(Direction, Vec<u8>), String> {
    let text = text.trim();
    let (first, hex) = text.split_once(char::is_whitespace).unwrap_or((text, ""));
    Ok((direction(first)?, bytes(hex)?))
}

pub fn direction(word: &str) -> Result<Direction, String> {
    match word {
        "T" => Ok(Direction::T),
        "R" => Ok(Direction::R),
        _ => Err(format!(
            "the direction is T or R, not {:?}",
            shortened(word)
        )),
    }
}

/// Spaces may stand between bytes, but not within one: `0 10 2` is a slip, not two bytes.
pub fn bytes(hex: &str) -> Result<Vec<u8>, String> {
    let mut bytes = Vec::with_capacity(hex.len() / 2);
    for word in hex.split_whitespace() {
        let digits: Vec<u8> = word.chars().map(digit).collect::<Result<_, _>>()?;
        if digits.len() % 2 == 1 {
            return Err(format!(
                "an odd number of hex digits in {:?}",
                shortened(word)
            ));
        }
        bytes.extend(digits.chunks(2).map(|pair| pair[0] << 4 | pair[1]));
    }
    Ok(bytes)
}

fn digit(digit: char) -> Result<u8, String> {
    match digit.to_digit(16) {
        Some(value) => Ok(value as u8),
        None => Err(format!("{digit:?} is not a hex digit")),
    }
}

/// The complaint stays one readable line, however long the word.
fn shortened(word: &str) -> String {
    match word.char_indices().nth(40) {
        Some((end, _)) => format!("{}..", &word[..end]),
        None => word.into(),
    }
}
