//! A client's stream: request by request, each answered before the next is read.

use std::io::{self, Read, Write};
use std::path::Path;

use sheafsledge::stream::{Frames, Next};
use sheafsledge::{Refusal, Rframe, Rlerror, Rmessage, Tframe};

use crate::files::Errno;
use crate::session::{Session, MOST};

/// Until the client goes, or sends what is no frame.
pub fn serve(from: impl Read, mut to: impl Write, directory: &Path) -> io::Result<()> {
    let mut session = Session::new(directory)?;
    let mut requests = Frames::new(from, session.msize());
    let (mut data, mut reply) = (vec![0; MOST], vec![0; MOST]);
    loop {
        let (tag, answer) = match requests.next_frame()? {
            Next::Frame(frame) => {
                // Bytes after the last field are a tail: left alone, and never a second request.
                let Tframe { tag, msg } = Tframe::decode(frame)?.frame;
                let answer = msg.map_err(unreadable);
                (tag, answer.and_then(|msg| session.answer(msg, &mut data)))
            }
            // Its bytes are passed over in the next call.
            Next::TooLong(told) => (told.tag, Err(Errno::TOO_LONG)),
            Next::End => return Ok(()),
        };
        let msg = answer.unwrap_or_else(|Errno(ecode)| Rmessage::Lerror(Rlerror { ecode }));
        Rframe { tag, msg }.encode_to(&mut to, &mut reply)?;
        // A Tversion may have changed it.
        requests.set_msize(session.msize());
    }
}

/// The client is told of a request that can't be read, since it has a tag; the stream goes on.
fn unreadable(refusal: Refusal) -> Errno {
    match refusal {
        Refusal::UnknownType => Errno::NOT_SUPPORTED,
        _ => Errno::INVALID,
    }
}
