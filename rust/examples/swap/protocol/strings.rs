//! Strings and data, as p9 has them.

use std::ffi::{c_char, CStr, CString, OsStr};
use std::fmt;
use std::io;
use std::ops::{Deref, DerefMut, Range};

use sheafsledge::Text;

/// A string of a frame with a zero byte after it, for the system's calls.
#[derive(Clone, Debug, PartialEq, Eq, Hash)]
pub struct P9String {
    cstr: CString,
}

impl P9String {
    pub fn new(bytes: impl Into<Vec<u8>>) -> io::Result<Self> {
        let bytes = bytes.into();
        Text::from_bytes(&bytes)?;
        Ok(Self {
            cstr: CString::new(bytes)?,
        })
    }

    pub fn read(text: Text) -> Self {
        Self {
            cstr: text.to_c_string(),
        }
    }

    pub fn text(&self) -> io::Result<Text<'_>> {
        Ok(Text::from_bytes(self.as_bytes())?)
    }

    #[allow(clippy::len_without_is_empty)] // p9 has none.
    pub fn len(&self) -> usize {
        self.as_bytes().len()
    }

    pub fn as_c_str(&self) -> &CStr {
        &self.cstr
    }

    pub fn as_bytes(&self) -> &[u8] {
        self.cstr.as_bytes()
    }

    pub fn as_ptr(&self) -> *const c_char {
        self.cstr.as_ptr()
    }
}

impl PartialEq<&str> for P9String {
    fn eq(&self, other: &&str) -> bool {
        self.as_bytes() == other.as_bytes()
    }
}

impl TryFrom<&OsStr> for P9String {
    type Error = io::Error;

    fn try_from(name: &OsStr) -> io::Result<Self> {
        Self::new(name.as_encoded_bytes())
    }
}

/// Bytes; those of a long Twrite stay in the frame that they came in.
#[derive(PartialEq, Eq)]
pub struct Data {
    bytes: Vec<u8>,
    start: usize,
}

/// As p9 writes it, where `Data` is a tuple struct.
#[allow(non_snake_case)]
pub fn Data(bytes: Vec<u8>) -> Data {
    Data { bytes, start: 0 }
}

impl Data {
    /// A part of a frame.
    pub fn within(mut frame: Vec<u8>, part: Range<usize>) -> Self {
        frame.truncate(part.end);
        Self {
            bytes: frame,
            start: part.start,
        }
    }

    pub fn truncate(&mut self, len: usize) {
        self.bytes.truncate(self.start + len);
    }
}

impl Deref for Data {
    type Target = [u8];

    fn deref(&self) -> &[u8] {
        &self.bytes[self.start..]
    }
}

impl DerefMut for Data {
    fn deref_mut(&mut self) -> &mut [u8] {
        &mut self.bytes[self.start..]
    }
}

impl fmt::Debug for Data {
    fn fmt(&self, f: &mut fmt::Formatter) -> fmt::Result {
        write!(f, "Data({} bytes)", self.len())
    }
}
