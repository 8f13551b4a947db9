//! Names and paths in quotes.

/// In one line, and nothing in it that a terminal would obey.
pub fn quoted(name: &[u8], text: &mut Vec<u8>) {
    const DIGITS: &[u8; 16] = b"0123456789abcdef";
    text.push(b'"');
    for byte in name {
        match byte {
            b'"' | b'\\' => text.extend_from_slice(&[b'\\', *byte]),
            0..=31 | 127 => {
                let [high, low] = [byte >> 4, byte & 15].map(|digit| DIGITS[digit as usize]);
                text.extend_from_slice(&[b'\\', b'x', high, low]);
            }
            _ => text.push(*byte),
        }
    }
    text.push(b'"');
}
