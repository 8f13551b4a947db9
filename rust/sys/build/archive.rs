//! What an archive holds.

/// Whether it has a function of that name, by its index: the first member, which is a count, as many
/// places, and as many names.
pub fn defines(archive: &[u8], name: &str) -> bool {
    index(archive).is_some_and(|names| {
        names
            .split(|&byte| byte == 0)
            .any(|held| held == name.as_bytes())
    })
}

/// The names, with a zero after each.
fn index(archive: &[u8]) -> Option<&[u8]> {
    let member = archive
        .strip_prefix(b"!<arch>\n")?
        .strip_prefix(b"/               ")?;
    // A time, an owner, a group and a mode, in 32 bytes; the size in 10; two that end the head.
    let size = std::str::from_utf8(member.get(32..42)?).ok()?;
    let held = member.get(44..)?.get(..size.trim_end().parse().ok()?)?;
    let (count, rest) = held.split_first_chunk::<4>()?;
    rest.get(u32::from_be_bytes(*count) as usize * 4..)
}

/// Whether the toolchain compiled any of it without a proof: it leaves a mark then.
pub fn is_unproved(archive: &[u8]) -> bool {
    let mark = b"rattle unproved";
    archive.windows(mark.len()).any(|bytes| bytes == mark)
}
