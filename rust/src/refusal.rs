//! Why a frame or a plan is refused: the numbers of the requirements.

use core::fmt;
#[cfg(feature = "std")]
use std::io::{Error, ErrorKind};

macro_rules! about_the_place {
    (NotUtf8) => {
        "Where the longest well-formed start of the string ends: a character breaks off there, or \
         none starts there."
    };
    (ZeroByte) => {
        "Where the first zero byte stands."
    };
}

macro_rules! refusals {
    ($($number:literal $name:ident $({ $at:ident })? $kind:ident $text:literal)*) => {
        /// Why a frame was not read or not written, or a plan not made. Later versions of the requirements have more.
        ///
        /// 5 and 6 say `at` which byte. In reading it counts from the first byte that was lent: of the
        /// frame, of the stretch that the frame is listed from, or of the slice which a directory
        /// entry stands in; in writing from the first byte of the string itself, or of the text that
        /// [`write_twalk`](crate::write_twalk) takes.
        ///
        /// ```
        /// use sheafsledge::{Refusal, Tframe};
        /// let refusal = Tframe::decode(b"\x03\0\0\0").unwrap_err();
        /// assert_eq!(refusal, Refusal::SizeBelowFour);
        /// assert_eq!((refusal.number(), refusal.name()), (2, "SizeBelowFour"));
        /// assert_eq!(refusal.meaning(), "the frame's size is less than 4");
        /// assert_eq!(refusal.to_string(), "the frame's size is less than 4 (refusal 2)");
        ///
        /// let rreadlink = b"\x0c\0\0\0\x17\x01\0\x03\0l\xf6g";
        /// let refusal = sheafsledge::Rframe::decode(rreadlink).unwrap_err();
        /// assert_eq!(refusal, Refusal::NotUtf8 { at: 10 });
        /// assert_eq!(refusal.sentence().to_string(), "a string is not UTF-8 at byte 10");
        /// assert_eq!(refusal.to_string(), "a string is not UTF-8 at byte 10 (refusal 5)");
        /// ```
        // The numbers are the tags, so that nothing is looked up when an outcome becomes a refusal,
        // and 0 is left for what is none.
        #[derive(Clone, Copy, Debug, PartialEq, Eq, Hash)]
        #[non_exhaustive]
        #[repr(u8)]
        pub enum Refusal {
            $(
                #[doc = $text]
                $name $({
                    #[doc = about_the_place!($name)]
                    $at: usize,
                })? = $number,
            )*
        }

        impl Refusal {
            /// What an outcome tells by its number and its place. 0 alone is no refusal: a number
            /// that is not known here is not taken for it.
            #[inline(always)]
            pub(crate) fn of(number: u8, place: usize) -> Option<Self> {
                match number {
                    0 => None,
                    _ => Some(Self::numbered(number, place)),
                }
            }

            /// Called, so that what is accepted does not wait for it.
            #[cold]
            fn numbered(number: u8, place: usize) -> Self {
                match number {
                    $($number => Self::$name $({ $at: place })?,)*
                    _ => Self::Foreign,
                }
            }

            /// The number of the requirements.
            pub fn number(self) -> u8 {
                match self {
                    $(Self::$name { .. } => $number,)*
                }
            }

            /// The name that it has here.
            pub fn name(self) -> &'static str {
                match self {
                    $(Self::$name { .. } => stringify!($name),)*
                }
            }

            /// What its number means, the same for all that have it.
            pub fn meaning(self) -> &'static str {
                match self {
                    $(Self::$name { .. } => $text,)*
                }
            }

            /// The kind of `std::io::Error` that p9 has for it, or the nearest where p9 has none.
            #[cfg(feature = "std")]
            pub fn kind(self) -> ErrorKind {
                match self {
                    $(Self::$name { .. } => ErrorKind::$kind,)*
                }
            }
        }
    };
}

refusals! {
    1 Short UnexpectedEof "the bytes end inside a field or the header"
    2 SizeBelowFour InvalidData "the frame's size is less than 4"
    3 UnknownType InvalidData "the message type is unknown"
    4 DataTooLong InvalidData "the data's count is above 33,554,432"
    5 NotUtf8 { at } InvalidInput "a string is not UTF-8"
    6 ZeroByte { at } InvalidInput "a string has a zero byte"
    7 StringTooLong InvalidInput "a string is longer than 65,535 bytes"
    8 TableTooLong InvalidInput "a vector has more than 65,535 elements"
    9 SpanOutside InvalidInput "a field lies outside the bytes that it is taken from"
    10 FrameTooLong InvalidInput "the frame is longer than 4,294,967,295 bytes"
    11 NoRoom WriteZero "the output is shorter than the frame"
    12 StretchCut UnexpectedEof "the stretch of frames is cut"
    13 StretchSize InvalidData "a frame's size is less than 7"
    14 PartMalformed InvalidInput "the elements of a vector do not fill it"
    15 NoSuchElement InvalidInput "a vector has no element of that number"
    16 HoldsRefusal InvalidData "the frame holds a refusal, and no message to write"
    17 TooManyElements InvalidInput "a walk has more than sixteen elements"
    18 StatMalformed InvalidData "a stat's count, its size and its fields do not agree"
    19 Trailer InvalidData "the recording has no trailer, or not that of its frames"
    20 TagOpen InvalidData "the request's tag is that of an open request"
    21 NoRequest InvalidData "the reply answers no open request"
    22 FidInUse InvalidData "a fid that has to be new is in use"
    23 FidUnknown InvalidInput "the fid is unknown"
    24 TableFull InvalidInput "the table has too few rows"
    25 Capture InvalidData "the capture file is malformed, or the frame does not fit one"
    26 MsizeTooSmall InvalidInput "the msize is below 24, and no Twrite with data fits"
    27 EndTooFar InvalidInput "the end of the write is above 18,446,744,073,709,551,615"
    255 Foreign Other "the library is another than this crate is for: it answers a number that is not known here"
}

impl Refusal {
    /// Which byte it tells of, as 5 and 6 do; see [`Refusal`] for where that counts from.
    ///
    /// ```
    /// use sheafsledge::{Refusal, Text};
    /// assert_eq!(Text::new("ab\0").unwrap_err().at(), Some(2));
    /// assert_eq!(Refusal::Short.at(), None);
    /// ```
    pub fn at(self) -> Option<usize> {
        match self {
            Self::NotUtf8 { at } | Self::ZeroByte { at } => Some(at),
            _ => None,
        }
    }

    /// What it says to people: what its number means, and which byte it tells of.
    pub fn sentence(self) -> Sentence {
        Sentence(self)
    }

    /// The same, its place counted from a byte that comes later.
    pub(crate) fn counted_from(mut self, start: usize) -> Self {
        if let Self::NotUtf8 { at } | Self::ZeroByte { at } = &mut self {
            *at -= start;
        }
        self
    }
}

/// What a refusal says to people, see [`Refusal::sentence`].
#[derive(Clone, Copy, Debug, PartialEq, Eq, Hash)]
pub struct Sentence(Refusal);

impl fmt::Display for Sentence {
    fn fmt(&self, f: &mut fmt::Formatter) -> fmt::Result {
        f.write_str(self.0.meaning())?;
        match self.0.at() {
            Some(at) => write!(f, " at byte {at}"),
            None => Ok(()),
        }
    }
}

impl fmt::Display for Refusal {
    fn fmt(&self, f: &mut fmt::Formatter) -> fmt::Result {
        write!(f, "{} (refusal {})", self.sentence(), self.number())
    }
}

impl core::error::Error for Refusal {}

/// So that a server written against p9 keeps its error handling.
#[cfg(feature = "std")]
impl From<Refusal> for Error {
    fn from(refusal: Refusal) -> Self {
        Error::new(refusal.kind(), refusal)
    }
}

#[cfg(test)]
mod tests {
    use alloc::string::ToString;

    use super::Refusal;

    #[test]
    fn only_zero_is_no_refusal() {
        for number in 0..=255 {
            let told = Refusal::of(number, 14).map(Refusal::number);
            let owed = match number {
                0 => None,
                1..=27 => Some(number),
                _ => Some(255),
            };
            assert_eq!(told, owed);
        }
    }

    #[test]
    fn two_have_a_place() {
        for number in 1..=255 {
            let refusal = Refusal::of(number, 14).expect("0 alone is none");
            let place = matches!(number, 5 | 6).then_some(14);
            assert_eq!(refusal.at(), place, "{refusal}");
            let from_four = refusal.counted_from(4);
            assert_eq!(from_four.number(), refusal.number());
            assert_eq!(from_four.at(), place.map(|_| 10));
        }
        let told = |number| Refusal::of(number, 14).map(|refusal| refusal.to_string());
        let five = "a string is not UTF-8 at byte 14 (refusal 5)";
        assert_eq!(told(5).as_deref(), Some(five));
        let six = "a string has a zero byte at byte 14 (refusal 6)";
        assert_eq!(told(6).as_deref(), Some(six));
    }

    /// It crosses as a number and a place do, in two words.
    #[test]
    fn a_length_or_a_refusal_is_two_words() {
        assert_eq!(size_of::<Refusal>(), 16);
        assert_eq!(size_of::<Result<usize, Refusal>>(), 16);
    }
}
