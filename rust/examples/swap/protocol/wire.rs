//! Frames and directory entries, read from a stream and written to one.

use std::cell::RefCell;
use std::io::{self, Read, Write};

use sheafsledge::{Decoded, Make, Refusal, Tag};

use super::records::{Dirent, Field, Rframe, Rmessage, Room, Tframe, Tmessage, Twrite};
use super::strings::Data;

/// What p9 reads and writes by.
pub trait WireFormat: Sized {
    /// Panics where the record can't be written, as p9 does.
    fn byte_size(&self) -> u32;
    fn encode<W: Write>(&self, writer: &mut W) -> io::Result<()>;
    fn decode<R: Read>(reader: &mut R) -> io::Result<Self>;
}

/// A frame's size, and all that stands before its fields.
const SIZE: usize = 4;
const HEADER: usize = 7;

/// Most requests and most replies are so short that they have room on the stack.
const SMALL_REQUEST: usize = 64;
const SMALL_REPLY: usize = 192;

/// Frames of so many bytes are read in a buffer that is kept; longer ones have one of their own.
const SHORT: usize = 4096;

/// More is not set aside for a frame before its bytes are there.
const LONG: usize = 1 << 20;

thread_local! {
    // Kept from frame to frame, so that none is cleared or allocated for each.
    static READ: RefCell<Vec<u8>> = RefCell::new(vec![0; SHORT]);
    static WRITTEN: RefCell<Vec<u8>> = RefCell::new(vec![0; SHORT]);
}

// What a server calls for each request is inlined there: a frame that goes over a call is stored and
// loaded again in other pieces, which takes longer than to read it.

impl WireFormat for Tframe {
    fn byte_size(&self) -> u32 {
        measured(lent_t(self, &Room::default()).and_then(|frame| Ok(frame.byte_size()?)))
    }

    fn encode<W: Write>(&self, writer: &mut W) -> io::Result<()> {
        let room = Room::default();
        let frame = lent_t(self, &room)?;
        put(writer, |out| frame.encode(out), || frame.byte_size())
    }

    #[inline(always)]
    fn decode<R: Read>(reader: &mut R) -> io::Result<Self> {
        framed(reader, read_t, read_long_t)
    }
}

impl WireFormat for Rframe {
    fn byte_size(&self) -> u32 {
        measured(lent_r(self, &Room::default()).and_then(|frame| Ok(frame.byte_size()?)))
    }

    #[inline(always)]
    fn encode<W: Write>(&self, writer: &mut W) -> io::Result<()> {
        if let Some(msg) = self.msg.without_fields() {
            let frame = sheafsledge::Rframe {
                tag: Tag(self.tag),
                msg,
            };
            let mut out = [0; HEADER];
            let len = frame.encode(&mut out)?;
            return writer.write_all(&out[..len]);
        }
        put_r(writer, self)
    }

    fn decode<R: Read>(reader: &mut R) -> io::Result<Self> {
        framed(reader, read_r, |frame| read_r(&frame))
    }
}

impl WireFormat for Dirent {
    fn byte_size(&self) -> u32 {
        measured(self.lent().map(|entry| entry.byte_size()))
    }

    fn encode<W: Write>(&self, writer: &mut W) -> io::Result<()> {
        let entry = self.lent()?;
        put(writer, |out| entry.encode(out, 0), || Ok(entry.byte_size()))
    }

    fn decode<R: Read>(reader: &mut R) -> io::Result<Self> {
        // Its length stands after 22 bytes: the qid, the offset and the type.
        let mut bytes = vec![0; 24];
        reader.read_exact(&mut bytes)?;
        let len = u16::from_le_bytes([bytes[22], bytes[23]]);
        reader.take(u64::from(len)).read_to_end(&mut bytes)?;
        let (entry, _) = sheafsledge::Dirent::decode(&bytes, 0)?;
        Ok(Self {
            qid: Field::owned(entry.qid),
            offset: entry.offset,
            ty: entry.ty,
            name: Field::owned(entry.name),
        })
    }
}

impl Dirent {
    fn lent(&self) -> io::Result<sheafsledge::Dirent<'_>> {
        let Self {
            qid,
            offset,
            ty,
            name,
        } = self;
        let (qid, name) = (qid.lent(&Room::default())?, name.text()?);
        Ok(sheafsledge::Dirent {
            qid,
            offset: *offset,
            ty: *ty,
            name,
        })
    }
}

#[inline(always)]
fn lent_t<'a>(frame: &'a Tframe, room: &'a Room<'a>) -> io::Result<sheafsledge::Tframe<'a>> {
    let msg = frame.msg.as_ref().map_err(|_| Refusal::HoldsRefusal)?;
    let (tag, msg) = (Tag(frame.tag), Ok(msg.lent(room)?));
    Ok(sheafsledge::Tframe { tag, msg })
}

#[inline(always)]
fn lent_r<'a>(frame: &'a Rframe, room: &'a Room<'a>) -> io::Result<sheafsledge::Rframe<'a>> {
    let (tag, msg) = (Tag(frame.tag), frame.msg.lent(room)?);
    Ok(sheafsledge::Rframe { tag, msg })
}

#[inline(always)]
fn read_t(frame: &[u8]) -> io::Result<Tframe> {
    sheafsledge::Tframe::decode_into(frame, Owned)
}

/// Makes p9's frames of the crate's.
struct Owned;

impl<'a> Make<sheafsledge::Tframe<'a>> for Owned {
    type Made = io::Result<Tframe>;

    #[inline(always)]
    fn make(self, read: Result<Decoded<sheafsledge::Tframe<'a>>, Refusal>) -> Self::Made {
        let sheafsledge::Tframe { tag, msg } = read?.frame;
        let framed = |msg| Ok(Tframe { tag: tag.0, msg });
        match msg {
            Ok(msg) => Tmessage::owned(msg, |msg| framed(Ok(msg))),
            Err(refusal) => framed(Err(refusal.into())),
        }
    }
}

impl<'a> Make<sheafsledge::Rframe<'a>> for Owned {
    type Made = io::Result<Rframe>;

    #[inline(always)]
    fn make(self, read: Result<Decoded<sheafsledge::Rframe<'a>>, Refusal>) -> Self::Made {
        let sheafsledge::Rframe { tag, msg } = read?.frame;
        Rmessage::owned(msg, |msg| Ok(Rframe { tag: tag.0, msg }))
    }
}

/// The data of a long Twrite stays where it is.
fn read_long_t(bytes: Vec<u8>) -> io::Result<Tframe> {
    let Decoded { frame, used } = sheafsledge::Tframe::decode(&bytes)?;
    let Ok(sheafsledge::Tmessage::Write(write)) = frame.msg else {
        return read_t(&bytes);
    };
    let (tag, fid, offset) = (frame.tag.0, write.fid.0, write.offset);
    // It is the last field; after it there may be a tail.
    let data = used - write.data.len()..used;
    let data = Data::within(bytes, data);
    let msg = Ok(Tmessage::Write(Twrite { fid, offset, data }));
    Ok(Tframe { tag, msg })
}

#[inline(always)]
fn read_r(frame: &[u8]) -> io::Result<Rframe> {
    sheafsledge::Rframe::decode_into(frame, Owned)
}

/// As much of a frame as the stream has, by its declared size.
#[inline(always)]
fn framed<R: Read, F>(
    reader: &mut R,
    short: impl Fn(&[u8]) -> io::Result<F>,
    long: impl FnOnce(Vec<u8>) -> io::Result<F>,
) -> io::Result<F> {
    let mut small = [0; SMALL_REQUEST];
    reader.read_exact(&mut small[..SIZE])?;
    let [a, b, c, d, ..] = small;
    let len = u32::from_le_bytes([a, b, c, d]) as usize;
    if len <= SMALL_REQUEST {
        return short(filled(reader, &mut small, len)?);
    }
    if len <= SHORT {
        return READ.with_borrow_mut(|buffer| {
            buffer[..SIZE].copy_from_slice(&small[..SIZE]);
            short(filled(reader, buffer, len)?)
        });
    }
    let mut bytes = Vec::with_capacity(len.min(LONG));
    bytes.extend(&small[..SIZE]);
    reader.take((len - SIZE) as u64).read_to_end(&mut bytes)?;
    long(bytes)
}

/// The frame after its size, as far as the stream has it.
#[inline(always)]
fn filled<'b>(reader: &mut impl Read, buffer: &'b mut [u8], len: usize) -> io::Result<&'b [u8]> {
    let mut end = SIZE;
    while end < len {
        match reader.read(&mut buffer[end..len]) {
            Ok(0) => break,
            Ok(count) => end += count,
            Err(error) if error.kind() == io::ErrorKind::Interrupted => {}
            Err(error) => return Err(error),
        }
    }
    Ok(&buffer[..end])
}

/// A function of its own, so that a reply without fields does not pay for its room on the stack.
#[inline(never)]
fn put_r(writer: &mut impl Write, frame: &Rframe) -> io::Result<()> {
    let room = Room::default();
    let frame = lent_r(frame, &room)?;
    put(writer, |out| frame.encode(out), || frame.byte_size())
}

/// In one piece.
#[inline(always)]
fn put(
    writer: &mut impl Write,
    encode: impl Fn(&mut [u8]) -> Result<usize, Refusal>,
    size: impl FnOnce() -> Result<usize, Refusal>,
) -> io::Result<()> {
    let mut small = [0; SMALL_REPLY];
    match encode(&mut small) {
        Err(Refusal::NoRoom) => {}
        encoded => return writer.write_all(&small[..encoded?]),
    }
    WRITTEN.with_borrow_mut(|buffer| {
        let size = size()?;
        if buffer.len() < size {
            buffer.resize(size, 0);
        }
        let len = encode(buffer)?;
        writer.write_all(&buffer[..len])
    })
}

fn measured(size: io::Result<usize>) -> u32 {
    size.expect("a record that can be written") as u32
}
