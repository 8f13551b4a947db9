//! The marks below a frame's bytes. Ranges count from the first byte of what was listed, so here they
//! are the file's.

use sheafsledge::{message_name, Listed};

/// A frame's bytes, with a mark below each that belongs to a name; nothing of a frame without names. A
/// byte that is no printable ASCII is a dot.
pub fn marked(bytes: &[u8], frame: &Listed) -> String {
    let mut marks = vec![b' '; frame.size];
    for (range, _) in frame.fields().flat_map(|field| field.texts()) {
        marks[range.start - frame.at..range.end - frame.at].fill(b'^');
    }
    let marks = String::from_utf8_lossy(&marks);
    if marks.trim_end().is_empty() {
        return String::new();
    }
    let name = message_name(frame.ty).unwrap_or("?");
    let shown = bytes[frame.at..frame.next].iter().map(|byte| match byte {
        b' '..=b'~' => char::from(*byte),
        _ => '.',
    });
    let shown: String = shown.collect();
    format!("{} {name}\n  {shown}\n  {}\n", frame.at, marks.trim_end())
}
