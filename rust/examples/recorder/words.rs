//! What the frames of a recording hold, in any dialect. Texts of the recording are quoted: a terminal obeys
//! none of them.

use sheafsledge::any::{Held, Stretch};
use sheafsledge::{plain, stretch, unix, Body, Qid, Rmessage, Value};

/// A line for each frame, and what is wrong with the recording, if anything is.
pub fn session(bytes: &[u8]) -> (String, Option<String>) {
    match agreed(bytes) {
        Some("9P2000.L") => lines(stretch(bytes)),
        Some("9P2000.u") => lines(unix::stretch(bytes)),
        Some("9P2000") => lines(plain::stretch(bytes)),
        Some(other) => (String::new(), Some(format!("no dialect {other:?} here"))),
        None => (String::new(), Some("no Rversion says its dialect".into())),
    }
}

/// The version that a server has answered. Frames of versions are the same in every dialect, so any reads
/// them; what the client has asked for is no more than its wish.
pub fn agreed(bytes: &[u8]) -> Option<&str> {
    let mut frames = stretch(bytes).map_while(Result::ok);
    frames.find_map(|frame| match frame.body {
        Body::Reply(Ok(Rmessage::Version(m))) => Some(m.version.as_str()),
        _ => None,
    })
}

fn lines<'a, B: Held<'a>>(frames: Stretch<'a, B>) -> (String, Option<String>) {
    let mut text = String::new();
    for frame in frames {
        let frame = match frame {
            Ok(frame) => frame,
            Err(stop) => return (text, Some(stop.to_string())),
        };
        let name = B::name_of(frame.ty).unwrap_or("?");
        text += &format!("{} {} {name}", frame.at, frame.tag);
        for field in frame.fields() {
            text += &format!(" {}={}", field.name, said(field.value));
        }
        if let Some(refusal) = frame.body.refusal() {
            text += &format!(" is refused: {refusal}");
        }
        text += "\n";
    }
    (text, None)
}

fn said(value: Value) -> String {
    match value {
        Value::Number(number) => number.to_string(),
        Value::Text(text) => format!("{text:?}"),
        Value::Data(data) => format!("{} bytes", data.len()),
        Value::Names(names) => format!("{names:?}"),
        Value::Qids(qids) => qids.iter().map(dotted).collect::<Vec<_>>().join(","),
        Value::Qid(qid) => dotted(qid),
        Value::Stat(_) | Value::UnixStat(_) => {
            let part = |(name, value)| format!("{name}={}", said(value));
            let parts: Vec<_> = value.parts().map(part).collect();
            format!("({})", parts.join(" "))
        }
    }
}

fn dotted(Qid { ty, version, path }: Qid) -> String {
    format!("{ty}.{version}.{path}")
}
