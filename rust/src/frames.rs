//! One frame, read from bytes and written into bytes. What is read borrows from the bytes.

#[cfg(feature = "std")]
use std::io::{self, Write};

use crate::boundary::{Outcome, R_VALUES, T_VALUES};
use crate::ffi::Told;
use crate::fields::{fill, Field};
use crate::{ffi, tables, Refusal, Rmessage, Tag, Tmessage, WalkHead};

/// How many bytes stand before a frame's first field: its size, its type and its tag.
pub(crate) const HEADER: usize = 7;

const TWALK: u8 = 110;

/// A frame that was read, and how many bytes its header and fields are; a tail may follow them,
/// up to the declared size.
#[derive(Clone, Copy, Debug, PartialEq, Eq)]
pub struct Decoded<F> {
    /// The frame.
    pub frame: F,
    /// How many bytes it is without its tail.
    pub used: usize,
}

/// What a caller makes of a frame that is read: types of its own, mostly.
///
/// [`Tframe::decode_into`] answers what `make` answers for [`Tframe::decode`]'s answer. But it is
/// made in each place where a message is read and its type is known, so that no message is held in
/// between, if `make` is `#[inline(always)]`:
///
/// ```
/// use sheafsledge::{Decoded, Make, Refusal, Tframe, Tmessage};
/// struct Flush { tag: u16, oldtag: u16 }
/// struct Flushes;
///
/// impl<'a> Make<Tframe<'a>> for Flushes {
///     type Made = Option<Flush>;
///
///     #[inline(always)]
///     fn make(self, read: Result<Decoded<Tframe<'a>>, Refusal>) -> Option<Flush> {
///         let Tframe { tag, msg } = read.ok()?.frame;
///         let Ok(Tmessage::Flush(flush)) = msg else { return None };
///         Some(Flush { tag: tag.0, oldtag: flush.oldtag.0 })
///     }
/// }
///
/// let flush = Tframe::decode_into(b"\x09\0\0\0\x6c\x01\0\x02\0", Flushes).unwrap();
/// assert_eq!((flush.tag, flush.oldtag), (1, 2));
/// ```
pub trait Make<F> {
    /// What it is made into.
    type Made;
    /// Makes it.
    fn make(self, read: Result<Decoded<F>, Refusal>) -> Self::Made;
}

/// What [`Tframe::decode`] makes of it.
pub(crate) struct AsItIs;

impl<F> Make<F> for AsItIs {
    type Made = Result<Decoded<F>, Refusal>;

    #[inline(always)]
    fn make(self, read: Result<Decoded<F>, Refusal>) -> Self::Made {
        read
    }
}

/// What stands beside a message.
pub(crate) struct Framed<M> {
    pub tag: Tag,
    pub used: usize,
    pub make: M,
}

/// The two frames of a dialect, over its enums `Tmessage` and `Rmessage`: what they are, how they are read,
/// and how long they are. How they are written is each dialect's own `encode`.
macro_rules! frames {
    (
        $(#[$t:meta])* Tframe in $t_values:path, $read_t:path;
        $(#[$t_decode:meta])* decode;
        $(#[$t_size:meta])* byte_size;
        $(#[$r:meta])* Rframe in $r_values:path, $read_r:path;
        $(#[$r_decode:meta])* decode;
        $(#[$r_size:meta])* byte_size;
        $(#[$r_send:meta])* encode_to;
    ) => {
        $(#[$t])*
        #[derive(Clone, Copy, Debug, PartialEq, Eq)]
        pub struct Tframe<'a> {
            /// What its reply bears, too.
            pub tag: $crate::Tag,
            /// What is asked for, or why that can't be read.
            pub msg: Result<Tmessage<'a>, $crate::Refusal>,
        }

        $(#[$r])*
        #[derive(Clone, Copy, Debug, PartialEq, Eq)]
        pub struct Rframe<'a> {
            /// The tag of the request.
            pub tag: $crate::Tag,
            /// What is answered.
            pub msg: Rmessage<'a>,
        }

        impl<'a, M: $crate::Make<Tframe<'a>>> $crate::records::Onward<Tmessage<'a>>
            for $crate::frames::Framed<M>
        {
            type Answer = M::Made;

            #[inline(always)]
            fn on(self, msg: Result<Tmessage<'a>, $crate::Refusal>) -> M::Made {
                let Self { tag, used, make } = self;
                let frame = Tframe { tag, msg };
                make.make(Ok($crate::Decoded { frame, used }))
            }
        }

        /// A refusal has no tag.
        impl<'a, M: $crate::Make<Rframe<'a>>> $crate::records::Onward<Rmessage<'a>>
            for $crate::frames::Framed<M>
        {
            type Answer = M::Made;

            #[inline(always)]
            fn on(self, msg: Result<Rmessage<'a>, $crate::Refusal>) -> M::Made {
                let Self { tag, used, make } = self;
                make.make(msg.map(|msg| $crate::Decoded {
                    frame: Rframe { tag, msg },
                    used,
                }))
            }
        }

        impl<'a> Tframe<'a> {
            $(#[$t_decode])*
            #[inline]
            pub fn decode(bytes: &'a [u8]) -> Result<$crate::Decoded<Self>, $crate::Refusal> {
                Self::decode_into(bytes, $crate::frames::AsItIs)
            }

            /// Reads as [`Tframe::decode`] does, and answers what is made of that, see
            /// [`Make`](crate::Make).
            #[inline(always)]
            pub fn decode_into<M: $crate::Make<Self>>(bytes: &'a [u8], make: M) -> M::Made {
                use $crate::records::Onward;
                let mut values = [0; $t_values];
                let read = $read_t(bytes, &mut values);
                let tag = $crate::Tag(read.tag);
                match $crate::Refusal::of(read.refusal, read.place) {
                    Some(refusal) if !read.held => make.make(Err(refusal)),
                    Some(refusal) => {
                        let used = 0;
                        $crate::frames::Framed { tag, used, make }.on(Err(refusal))
                    }
                    None => {
                        let (values, frame, used) = (values.iter(), bytes, read.place);
                        let framed = $crate::frames::Framed { tag, used, make };
                        let taken = &mut $crate::fields::Taken { values, frame };
                        Tmessage::take(read.ty, taken, framed)
                    }
                }
            }

            $(#[$t_size])*
            pub fn byte_size(&self) -> Result<usize, $crate::Refusal> {
                let fields = self.msg.map_or(0, |msg| msg.size());
                $crate::frames::sized(self.encode(&mut []), $crate::frames::HEADER + fields)
            }

            /// Writes the request to a stream in one call, by way of a buffer that the caller keeps,
            /// and answers its length. Refused, nothing is written.
            #[cfg(feature = "std")]
            pub fn encode_to(
                &self,
                stream: &mut impl std::io::Write,
                buffer: &mut [u8],
            ) -> std::io::Result<usize> {
                $crate::frames::send(self.encode(buffer), stream, buffer)
            }
        }

        impl<'a> Rframe<'a> {
            $(#[$r_decode])*
            #[inline]
            pub fn decode(bytes: &'a [u8]) -> Result<$crate::Decoded<Self>, $crate::Refusal> {
                Self::decode_into(bytes, $crate::frames::AsItIs)
            }

            /// Reads as [`Rframe::decode`] does, and answers what is made of that, see
            /// [`Make`](crate::Make).
            #[inline(always)]
            pub fn decode_into<M: $crate::Make<Self>>(bytes: &'a [u8], make: M) -> M::Made {
                use $crate::records::Onward;
                let mut values = [0; $r_values];
                let read = $read_r(bytes, &mut values);
                let (tag, used) = ($crate::Tag(read.tag), read.place);
                let framed = $crate::frames::Framed { tag, used, make };
                match $crate::Refusal::of(read.refusal, read.place) {
                    Some(refusal) => framed.on(Err(refusal)),
                    None => {
                        let (values, frame) = (values.iter(), bytes);
                        let taken = &mut $crate::fields::Taken { values, frame };
                        Rmessage::take(read.ty, taken, framed)
                    }
                }
            }

            $(#[$r_size])*
            pub fn byte_size(&self) -> Result<usize, $crate::Refusal> {
                let size = $crate::frames::HEADER + self.msg.size();
                $crate::frames::sized(self.encode(&mut []), size)
            }

            $(#[$r_send])*
            #[cfg(feature = "std")]
            pub fn encode_to(
                &self,
                stream: &mut impl std::io::Write,
                buffer: &mut [u8],
            ) -> std::io::Result<usize> {
                $crate::frames::send(self.encode(buffer), stream, buffer)
            }
        }
    };
}

pub(crate) use frames;

frames! {
    /// A request: its tag beside a message or a refusal.
    Tframe in T_VALUES, ffi::read_t;
    /// Reads the request at the front of some bytes; no byte after its declared size is looked
    /// at. Refused where the header can't be read; where the body can't, the tag is told, the
    /// message is the refusal, and nothing counts as used.
    ///
    /// ```
    /// use sheafsledge::{Tag, Tflush, Tframe, Tmessage};
    /// let read = Tframe::decode(&[9, 0, 0, 0, 108, 1, 0, 2, 0])?;
    /// assert_eq!(read.frame.tag, Tag(1));
    /// assert_eq!(read.frame.msg, Ok(Tmessage::Flush(Tflush { oldtag: Tag(2) })));
    /// # Ok::<(), sheafsledge::Refusal>(())
    /// ```
    decode;
    /// How long the frame is that [`Tframe::encode`] writes, or its refusal where the output has
    /// room enough.
    ///
    /// ```
    /// use sheafsledge::{Data, Fid, Tag, Tframe, Tmessage, Twrite};
    /// let write = Twrite { fid: Fid(1), offset: 0, data: Data(b"leap") };
    /// let frame = Tframe { tag: Tag(1), msg: Ok(Tmessage::Write(write)) };
    /// assert_eq!(frame.byte_size(), Ok(27));
    /// ```
    byte_size;

    /// A reply.
    Rframe in R_VALUES, ffi::read_r;
    /// Reads the reply at the front of some bytes; no byte after its declared size is looked at.
    decode;
    /// How long the frame is that [`Rframe::encode`] writes, or its refusal where the output has
    /// room enough. A server knows by it how much of a read fits into a reply:
    ///
    /// ```
    /// use sheafsledge::{Data, Rframe, Rmessage, Rread, Tag};
    /// let msize = 8192;
    /// let empty = Rmessage::Read(Rread { data: Data(b"") });
    /// let header = Rframe { tag: Tag(0), msg: empty }.byte_size()?;
    /// assert_eq!(msize - header, 8181);
    /// # Ok::<(), sheafsledge::Refusal>(())
    /// ```
    byte_size;
    /// Writes the reply to a stream in one call, by way of a buffer that the caller keeps, and
    /// answers its length. Refused, nothing is written.
    ///
    /// ```
    /// use sheafsledge::{Rframe, Rmessage, Tag};
    /// let (mut stream, mut buffer) = (Vec::new(), [0; 64]);
    /// Rframe { tag: Tag(1), msg: Rmessage::Flush }.encode_to(&mut stream, &mut buffer)?;
    /// assert_eq!(stream, b"\x07\0\0\0\x6d\x01\0");
    /// # Ok::<(), std::io::Error>(())
    /// ```
    encode_to;
}

impl Tframe<'_> {
    /// Writes the request at the front of the output, and answers its length. Refused, the output
    /// is as it was.
    #[inline]
    pub fn encode(&self, out: &mut [u8]) -> Result<usize, Refusal> {
        let Ok(msg) = &self.msg else {
            return Err(Refusal::HoldsRefusal);
        };
        if let Tmessage::Walk(walk) = msg {
            return match walk.wnames.lent() {
                Some(names) => {
                    let (tag, fid, newfid) = (self.tag, walk.fid, walk.newfid);
                    tables::write_names(out, WalkHead { tag, fid, newfid }, names)
                }
                // Every path is walked, and this is faster than to find its arm among all.
                None => laid_t((TWALK, self.tag), walk, out).told(),
            };
        }
        written_t(self.tag, msg, out).told()
    }
}

impl Rframe<'_> {
    /// Writes the reply at the front of the output, and answers its length. Refused, the output is
    /// as it was.
    #[inline(always)]
    pub fn encode(&self, out: &mut [u8]) -> Result<usize, Refusal> {
        // Many requests are answered by one of these, and they have no values to be laid out.
        if let Some(ty) = self.msg.empty() {
            return ffi::write_r(out, &[], (ty, self.tag), &[0; R_VALUES]).told();
        }
        match &self.msg {
            Rmessage::Walk(walk) => {
                if let Some(qids) = walk.wqids.lent() {
                    return ffi::write_rwalk(out, self.tag, qids);
                }
            }
            // Every file is asked for it, and no arm has to be found for it on either side.
            Rmessage::GetAttr(attr) => {
                let mut values = [0; R_VALUES];
                let [] = fill(&mut values, attr);
                return ffi::write_rgetattr(out, self.tag, &values).told();
            }
            _ => {}
        }
        written_r(self.tag, &self.msg, out).told()
    }
}

/// A request whose type is known, and which has not two strings.
#[inline(always)]
fn laid_t<'a>(head: (u8, Tag), record: &impl Field<'a>, out: &mut [u8]) -> Outcome {
    let mut values = [0; T_VALUES];
    let [only, _] = fill(&mut values, record);
    ffi::write_t(out, only, head, &values)
}

/// Answered in registers, as the library does; a `Result` would go through memory.
fn written_t(tag: Tag, msg: &Tmessage, out: &mut [u8]) -> Outcome {
    let mut values = [0; T_VALUES];
    match msg.put(&mut values) {
        (ty, [only, []]) => ffi::write_t(out, only, (ty, tag), &values),
        (ty, two) => in_its_own(two, ffi::write_two(out, two, (ty, tag), &values)),
    }
}

/// A refusal's place that counts on from the first of two strings is told in the second.
#[inline(always)]
fn in_its_own([first, _]: [&[u8]; 2], mut wrote: Outcome) -> Outcome {
    if matches!(wrote.refusal, 5 | 6) && wrote.place >= first.len() {
        wrote.place -= first.len();
    }
    wrote
}

/// No reply has two strings, or a string and data.
fn written_r(tag: Tag, msg: &Rmessage, out: &mut [u8]) -> Outcome {
    let mut values = [0; R_VALUES];
    let (ty, [only, _]) = msg.put(&mut values);
    ffi::write_r(out, only, (ty, tag), &values)
}

/// A frame that has a size is refused in an output without room for that alone.
pub(crate) fn sized(in_no_room: Result<usize, Refusal>, size: usize) -> Result<usize, Refusal> {
    match in_no_room {
        Err(Refusal::NoRoom) => Ok(size),
        other => other,
    }
}

#[cfg(feature = "std")]
pub(crate) fn send(
    encoded: Result<usize, Refusal>,
    stream: &mut impl Write,
    buffer: &[u8],
) -> io::Result<usize> {
    let len = encoded?;
    stream.write_all(&buffer[..len])?;
    Ok(len)
}

#[cfg(test)]
mod tests {
    use super::Tframe;
    use crate::{Fid, Refusal, Tag, Text, Tmessage, Trenameat};

    /// No `Text` of a caller's is refused, so these are such as the library would not have accepted.
    #[test]
    fn a_place_is_told_in_its_own_string() {
        let refused = |oldname: &str, newname: &str| {
            let (oldname, newname) = (Text::accepted(oldname), Text::accepted(newname));
            let msg = Ok(Tmessage::RenameAt(Trenameat {
                olddirfid: Fid(1),
                oldname,
                newdirfid: Fid(2),
                newname,
            }));
            Tframe { tag: Tag(1), msg }.encode(&mut [0; 64])
        };
        let zero = |at| Err(Refusal::ZeroByte { at });
        assert_eq!(refused("ab\0", "cd\0"), zero(2));
        assert_eq!(refused("ab", "cd\0\0"), zero(2));
        assert_eq!(refused("ab", "\0"), zero(0));
        assert_eq!(refused("", "c\0d"), zero(1));
        assert_eq!(refused("a\0b", ""), zero(1));
    }
}
