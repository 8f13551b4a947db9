//! A stretch cut into frames as the paper says.

/// The frame at the front by its declared size, or 12, 13.
pub fn whole(left: &[u8]) -> Result<&[u8], u8> {
    let size = left.first_chunk().ok_or(12)?;
    match u32::from_le_bytes(*size) as usize {
        0..=6 => Err(13),
        size => left.get(..size).ok_or(12),
    }
}
