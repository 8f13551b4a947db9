//! The strings of frames.

use alloc::ffi::CString;
use core::convert::Infallible;
use core::fmt;
use core::ops::Deref;

use crate::Refusal;

/// A string that a frame can hold: UTF-8 of at most 65,535 bytes, and none of them zero.
///
/// It is a `str` wherever one is wanted. The strings of a frame that was read are such, so that what
/// a server hands to the system cannot fail on the way:
///
/// ```
/// use sheafsledge::{Refusal, Text};
/// let name = Text::new("höhe.txt")?;
/// assert!(name.ends_with(".txt"));
/// assert_eq!(name.to_c_string().as_bytes_with_nul(), "höhe.txt\0".as_bytes());
/// assert_eq!(Text::new("a\0b"), Err(Refusal::ZeroByte { at: 1 }));
/// # Ok::<(), Refusal>(())
/// ```
#[derive(Clone, Copy, Default, PartialEq, Eq, PartialOrd, Ord, Hash)]
pub struct Text<'a>(&'a str);

/// How many bytes a string's count can say.
const LONGEST: usize = 65_535;

impl<'a> Text<'a> {
    /// Refused with 7 if the string is too long, and with 6 at its first zero byte.
    pub fn new(text: &'a str) -> Result<Self, Refusal> {
        checked(text).map_or(Ok(Self(text)), Err)
    }

    /// A string that stands in the program. It panics where [`Text::new`] would refuse; of a
    /// constant the compiler says so.
    ///
    /// ```
    /// use sheafsledge::Text;
    /// const DIALECT: Text = Text::from_static("9P2000.L");
    /// assert_eq!(DIALECT, "9P2000.L");
    /// ```
    ///
    /// ```compile_fail,E0080
    /// const CUT: sheafsledge::Text = sheafsledge::Text::from_static("a\0b");
    /// println!("{CUT}");
    /// ```
    pub const fn from_static(text: &'static str) -> Text<'static> {
        match checked(text) {
            None => Text(text),
            Some(_) => panic!("no frame can hold this string"),
        }
    }

    /// Bytes that come from elsewhere: refused with 7, 5 or 6, and 5 may tell of a byte after a zero.
    ///
    /// ```
    /// use sheafsledge::{Refusal, Text};
    /// assert_eq!(Text::from_bytes(b"log"), Text::new("log"));
    /// assert_eq!(Text::from_bytes(b"l\xf6g\0"), Err(Refusal::NotUtf8 { at: 1 }));
    /// ```
    pub fn from_bytes(bytes: &'a [u8]) -> Result<Self, Refusal> {
        if bytes.len() > LONGEST {
            return Err(Refusal::StringTooLong);
        }
        let text = core::str::from_utf8(bytes).map_err(|error| Refusal::NotUtf8 {
            at: error.valid_up_to(),
        });
        Self::new(text?)
    }

    /// A name that the system gave. Not every one is UTF-8: refused as by [`Text::from_bytes`].
    ///
    /// ```
    /// use sheafsledge::Text;
    /// use std::path::Path;
    /// let name = Path::new("/var/log").file_name().unwrap();
    /// assert_eq!(Text::from_os(name)?, "log");
    /// # Ok::<(), sheafsledge::Refusal>(())
    /// ```
    #[cfg(feature = "std")]
    pub fn from_os(name: &'a std::ffi::OsStr) -> Result<Self, Refusal> {
        Self::from_bytes(std::os::unix::ffi::OsStrExt::as_bytes(name))
    }

    /// A string that the library accepted.
    #[inline(always)]
    pub(crate) fn accepted(text: &'a str) -> Self {
        Self(text)
    }

    /// The string for as long as the bytes that it was read from.
    #[inline]
    pub fn as_str(&self) -> &'a str {
        self.0
    }

    /// A copy with a zero byte after it, as the system's calls take names. It cannot fail.
    pub fn to_c_string(&self) -> CString {
        CString::new(self.0).expect("a Text has no zero byte")
    }

    /// Not to be called: no zero byte stands after these bytes, as one does after p9's string, so
    /// that a call of the system would read on. [`Text::to_c_string`] has one.
    ///
    /// ```compile_fail,E0061
    /// let name = sheafsledge::Text::from_static("log");
    /// let path = name.as_ptr();
    /// ```
    #[doc(hidden)]
    pub fn as_ptr(&self, never: Infallible) -> Infallible {
        never
    }
}

/// Why a frame could not hold the string, if it could not.
const fn checked(text: &str) -> Option<Refusal> {
    let bytes = text.as_bytes();
    if bytes.len() > LONGEST {
        return Some(Refusal::StringTooLong);
    }
    let mut i = 0;
    while i < bytes.len() {
        if bytes[i] == 0 {
            return Some(Refusal::ZeroByte { at: i });
        }
        i += 1;
    }
    None
}

impl Deref for Text<'_> {
    type Target = str;

    #[inline]
    fn deref(&self) -> &str {
        self.0
    }
}

impl AsRef<str> for Text<'_> {
    fn as_ref(&self) -> &str {
        self.0
    }
}

#[cfg(feature = "std")]
impl AsRef<std::ffi::OsStr> for Text<'_> {
    fn as_ref(&self) -> &std::ffi::OsStr {
        self.0.as_ref()
    }
}

#[cfg(feature = "std")]
impl AsRef<std::path::Path> for Text<'_> {
    fn as_ref(&self) -> &std::path::Path {
        self.0.as_ref()
    }
}

impl<'a> TryFrom<&'a str> for Text<'a> {
    type Error = Refusal;

    fn try_from(text: &'a str) -> Result<Self, Refusal> {
        Self::new(text)
    }
}

impl<'a> From<Text<'a>> for &'a str {
    fn from(text: Text<'a>) -> Self {
        text.0
    }
}

impl PartialEq<str> for Text<'_> {
    fn eq(&self, other: &str) -> bool {
        self.0 == other
    }
}

impl PartialEq<&str> for Text<'_> {
    fn eq(&self, other: &&str) -> bool {
        self.0 == *other
    }
}

impl fmt::Debug for Text<'_> {
    fn fmt(&self, f: &mut fmt::Formatter) -> fmt::Result {
        fmt::Debug::fmt(self.0, f)
    }
}

impl fmt::Display for Text<'_> {
    fn fmt(&self, f: &mut fmt::Formatter) -> fmt::Result {
        fmt::Display::fmt(self.0, f)
    }
}
