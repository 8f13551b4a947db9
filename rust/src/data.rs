//! The data of a Twrite, an Rread and an Rreaddir.

use core::fmt;
use core::ops::Deref;

/// Bytes that a frame holds as they are. As p9's, they are told by their number.
///
/// ```
/// use sheafsledge::Data;
/// let data = Data(b"leap");
/// assert_eq!(data.len(), 4);
/// assert_eq!(format!("{data:?}"), "Data(4 bytes)");
/// ```
#[derive(Clone, Copy, Default, PartialEq, Eq, Hash)]
pub struct Data<'a>(
    /// All of them.
    pub &'a [u8],
);

impl Deref for Data<'_> {
    type Target = [u8];

    #[inline]
    fn deref(&self) -> &[u8] {
        self.0
    }
}

impl AsRef<[u8]> for Data<'_> {
    fn as_ref(&self) -> &[u8] {
        self.0
    }
}

impl<'a> From<&'a [u8]> for Data<'a> {
    fn from(bytes: &'a [u8]) -> Self {
        Self(bytes)
    }
}

impl fmt::Debug for Data<'_> {
    fn fmt(&self, f: &mut fmt::Formatter) -> fmt::Result {
        write!(f, "Data({} bytes)", self.0.len())
    }
}
