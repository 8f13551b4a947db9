//! The entries of a directory, as an Rreaddir's data holds them one after the other.

use crate::boundary::ENTRY_VALUES;
use crate::fields::{fill, Field, Filling, Taken};
use crate::{ffi, Data, Qid, Refusal, Rreaddir, Text};

/// A directory entry: 24 bytes and its name on the wire.
///
/// ```
/// use sheafsledge::{Data, Dirent, Qid, Rreaddir, Text};
/// let qid = Qid { ty: 0x80, version: 0, path: 7 };
/// let mut data = [0; 64];
/// let dcim = Dirent { qid, offset: 1, ty: 4, name: Text::new("dcim")? };
/// let log = Dirent { qid, offset: 2, ty: 8, name: Text::new("log")? };
/// let first = dcim.encode(&mut data, 0)?;
/// let end = log.encode(&mut data, first)?;
/// assert_eq!((first, end), (dcim.byte_size(), dcim.byte_size() + log.byte_size()));
///
/// let data = Data(&data[..end]);
/// let entries = Rreaddir { data }.entries();
/// assert_eq!(entries.collect::<Result<Vec<_>, _>>()?, [dcim, log]);
/// # Ok::<(), sheafsledge::Refusal>(())
/// ```
#[derive(Clone, Copy, Debug, PartialEq, Eq)]
pub struct Dirent<'a> {
    /// The file's qid.
    pub qid: Qid,
    /// Where a client that has come so far goes on: what it asks the next Treaddir for.
    pub offset: u64,
    /// The kind of file, as readdir(3) numbers it.
    pub ty: u8,
    /// The file's name in the directory.
    pub name: Text<'a>,
}

impl<'a> Dirent<'a> {
    /// Reads the entry at a place of some bytes, and answers the place after it too. 5 and 6 tell of a
    /// byte as counted from the first of these bytes.
    pub fn decode(bytes: &'a [u8], at: usize) -> Result<(Self, usize), Refusal> {
        let mut values = [0; ENTRY_VALUES];
        let next = ffi::read_dirent(bytes, at, &mut values)?;
        let (values, frame) = (values.iter(), bytes);
        Ok((Self::take(&mut Taken { values, frame }), next))
    }

    /// Writes the entry at a place of the output, and answers the place after it. Refused, the
    /// output is as it was: 11 where it ends before the entry does.
    pub fn encode(&self, out: &mut [u8], at: usize) -> Result<usize, Refusal> {
        let mut values = [0; ENTRY_VALUES];
        let [name] = fill(&mut values, self);
        ffi::write_dirent(out, at, name, &values)
    }

    /// How many bytes it is on the wire. Every entry has a size, since every [`Text`] fits.
    pub fn byte_size(&self) -> usize {
        self.size()
    }
}

/// In the layout's order, as a record's fields cross.
impl<'a> Field<'a> for Dirent<'a> {
    #[inline(always)]
    fn take(taken: &mut Taken<'a, '_>) -> Self {
        Self {
            qid: Field::take(taken),
            // The library has stored it and the qid's path one by one. If one load took both, it would
            // wait until the stores are done, a sixth of the time that an entry takes.
            offset: core::hint::black_box(Field::take(taken)),
            ty: Field::take(taken),
            name: Field::take(taken),
        }
    }

    #[inline(always)]
    fn put<const N: usize, const S: usize>(&self, put: &mut Filling<'_, 'a, N, S>) {
        self.qid.put(put);
        self.offset.put(put);
        self.ty.put(put);
        self.name.put(put);
    }

    fn size(&self) -> usize {
        self.qid.size() + self.offset.size() + self.ty.size() + self.name.size()
    }
}

impl<'a> Rreaddir<'a> {
    /// The entries one by one. The data is whatever the server sent, so an entry may be refused;
    /// none is given after that one. 5 and 6 tell of a byte as counted from the data's first.
    pub fn entries(&self) -> Dirents<'a> {
        Dirents::new(self.data.0)
    }

    /// Packs entries into a buffer, from the first on: as many whole ones as fit both the buffer and
    /// the count that a Treaddir asks for. The first that does not fit is taken from the iterator, and
    /// none after it.
    ///
    /// ```
    /// use sheafsledge::{Dirent, Qid, Rreaddir, Text};
    /// let qid = Qid { ty: 0, version: 0, path: 7 };
    /// let entry = |(offset, name)| Ok(Dirent { qid, offset, ty: 8, name: Text::new(name)? });
    /// let entries: Vec<_> = (1..).zip(["a", "bc", "d"]).map(entry).collect::<Result<_, _>>()?;
    /// let mut buffer = [0; 8192];
    ///
    /// let packed = Rreaddir::pack(&mut buffer, 60, entries.iter().copied())?;
    /// assert_eq!((packed.entries, packed.reply.data.len()), (2, 51));
    /// assert_eq!(packed.left, Some(entries[2]));
    /// assert_eq!(packed.reply.entries().collect::<Result<Vec<_>, _>>()?, entries[..2]);
    /// # Ok::<(), sheafsledge::Refusal>(())
    /// ```
    pub fn pack<'e>(
        buffer: &'a mut [u8],
        count: u32,
        entries: impl IntoIterator<Item = Dirent<'e>>,
    ) -> Result<Packed<'a, 'e>, Refusal> {
        let mut entries = entries.into_iter();
        let mut gathered = Gathered::new();
        let (used, packed) = (0, 0);
        let mut block = Block {
            buffer,
            count,
            used,
            packed,
        };
        let left = loop {
            let (len, apart) = gathered.gather(&mut entries, block.room());
            let all = block.pack(gathered.names.as_flattened(), &gathered.rows[..len])?;
            let Some(entry) = apart else {
                match all {
                    true if len == GATHERED => continue,
                    true => break None,
                    // They were foreseen to fit.
                    false => return Err(Refusal::Foreign),
                }
            };
            let fits = match entry.name.len() > SHORT {
                true if all => block.pack_alone(&entry)?,
                true => return Err(Refusal::Foreign),
                false => all,
            };
            if !fits {
                break Some(entry);
            }
        };
        let Block {
            buffer,
            used,
            packed,
            ..
        } = block;
        let data = Data(&buffer[..used]);
        Ok(Packed {
            reply: Self { data },
            entries: packed,
            left,
        })
    }

    /// Packs entries from a table as [`Rreaddir::pack`] does, in one call of the library: for a server
    /// that keeps its entries so, since those of an iterator are gathered first. Answers how many
    /// entries the reply holds, too.
    ///
    /// A row has the qid's type, version and path, the offset, the type, and where the name starts
    /// among the names, with its length. A number too large for its field counts by its lowest bytes.
    ///
    /// ```
    /// use sheafsledge::Rreaddir;
    /// let (names, rows) = (b"abc", [[0, 0, 7, 1, 8, 0, 1], [0, 0, 8, 2, 8, 1, 2]]);
    /// let mut buffer = [0; 8192];
    ///
    /// let (reply, entries) = Rreaddir::pack_table(&mut buffer, 8192, names, &rows)?;
    /// assert_eq!((entries, reply.data.len()), (2, 51));
    /// assert_eq!(reply.entries().last().unwrap()?.name, "bc");
    /// # Ok::<(), sheafsledge::Refusal>(())
    /// ```
    pub fn pack_table(
        buffer: &'a mut [u8],
        count: u32,
        names: &[u8],
        rows: &[[u64; ENTRY_VALUES]],
    ) -> Result<(Self, usize), Refusal> {
        let [entries, bytes] = ffi::pack(buffer, count, names, rows)?;
        let data = Data(&buffer[..bytes]);
        Ok((Self { data }, entries))
    }
}

/// How many entries are gathered for one call of the library.
const GATHERED: usize = 16;

/// How long a name may be that is gathered: most are no longer, and each has its place of so many bytes.
const SHORT: usize = 16;

/// Entries of an iterator in a table, for the library: a call for each of them takes longer than to put
/// their names beside one another.
struct Gathered {
    rows: [[u64; ENTRY_VALUES]; GATHERED],
    names: [[u8; SHORT]; GATHERED],
}

impl Gathered {
    #[inline(always)]
    fn new() -> Self {
        Self {
            rows: [[0; ENTRY_VALUES]; GATHERED],
            names: [[0; SHORT]; GATHERED],
        }
    }

    /// Gathers anew, up to the first that is not to fit so much room and is the last one gathered, or to
    /// one that is too long to be gathered; answers how many, and either. What fits, the library decides: it is
    /// foreseen here so that none after it is taken.
    #[inline(always)]
    fn gather<'e>(
        &mut self,
        entries: &mut impl Iterator<Item = Dirent<'e>>,
        room: usize,
    ) -> (usize, Option<Dirent<'e>>) {
        let (mut len, mut size) = (0, 0);
        for (row, place) in self.rows.iter_mut().zip(&mut self.names) {
            let Some(entry) = entries.next() else { break };
            let name = entry.name.as_str().as_bytes();
            if name.len() > SHORT {
                return (len, Some(entry));
            }
            let [_] = fill(row, &entry);
            row[NAME_START] = (SHORT * len) as u64;
            put_short(place, name);
            len += 1;
            size += entry.byte_size();
            if size > room {
                return (len, Some(entry));
            }
        }
        (len, None)
    }
}

/// Which of an entry's values is where its name starts.
const NAME_START: usize = 5;

/// Two pieces that may overlap, since a call of `memcpy` takes longer than all else.
#[inline(always)]
fn put_short(place: &mut [u8; SHORT], name: &[u8]) {
    let place = &mut place[..name.len()];
    match (name.first_chunk::<8>(), name.last_chunk::<8>()) {
        (Some(first), Some(last)) => {
            place[..8].copy_from_slice(first);
            place[name.len() - 8..].copy_from_slice(last);
        }
        _ => place.copy_from_slice(name),
    }
}

/// A block that is being packed.
struct Block<'a> {
    buffer: &'a mut [u8],
    count: u32,
    /// No more than the count, and no more than the buffer.
    used: usize,
    packed: usize,
}

impl Block<'_> {
    #[inline(always)]
    fn room(&self) -> usize {
        self.buffer.len().min(self.count as usize) - self.used
    }

    /// Whether all rows fit.
    #[inline(always)]
    fn pack(&mut self, names: &[u8], rows: &[[u64; ENTRY_VALUES]]) -> Result<bool, Refusal> {
        let (rest, count) = (&mut self.buffer[self.used..], self.count - self.used as u32);
        let [fits, bytes] = ffi::pack(rest, count, names, rows)?;
        self.used += bytes;
        self.packed += fits;
        Ok(fits == rows.len())
    }

    #[inline(never)]
    fn pack_alone(&mut self, entry: &Dirent) -> Result<bool, Refusal> {
        let mut rows = [[0; ENTRY_VALUES]];
        let [name] = fill(&mut rows[0], entry);
        self.pack(name, &rows)
    }
}

/// What [`Rreaddir::pack`] made of some entries.
#[derive(Clone, Copy, Debug, PartialEq, Eq)]
pub struct Packed<'a, 'e> {
    /// The reply that holds them.
    pub reply: Rreaddir<'a>,
    /// How many they are.
    pub entries: usize,
    /// The first that did not fit, if there is one. With no entries in the reply, a client would take
    /// it that there are none left.
    pub left: Option<Dirent<'e>>,
}

/// The entries of a block, which is what an Rreaddir has for its data: see [`Rreaddir::entries`].
///
/// ```
/// use sheafsledge::{Dirents, Refusal};
/// let block = b"\0\x01\0\0\0\x02\0\0\0\0\0\0\0\x03\0\0\0\0\0\0\0\x08\x02\0ab\0";
/// let mut entries = Dirents::new(block);
/// assert_eq!(entries.next().unwrap()?.name, "ab");
/// assert_eq!(entries.position(), 26);
/// assert_eq!(entries.next(), Some(Err(Refusal::Short)));
/// assert_eq!(entries.next(), None);
/// # Ok::<(), Refusal>(())
/// ```
#[derive(Clone, Copy, Debug)]
pub struct Dirents<'a> {
    data: &'a [u8],
    at: usize,
}

impl<'a> Dirents<'a> {
    /// The entries of some bytes, from the first on.
    pub fn new(block: &'a [u8]) -> Self {
        Self { data: block, at: 0 }
    }

    /// Where the next entry begins, in the block; after the last, and after a refused one, its end.
    pub fn position(&self) -> usize {
        self.at
    }
}

impl<'a> Iterator for Dirents<'a> {
    type Item = Result<Dirent<'a>, Refusal>;

    #[inline]
    fn next(&mut self) -> Option<Self::Item> {
        let mut values = [0; ENTRY_VALUES];
        match ffi::entry_at(self.data, self.at, &mut values) {
            Ok(next) => {
                self.at = next?;
                let (values, frame) = (values.iter(), self.data);
                Some(Ok(Dirent::take(&mut Taken { values, frame })))
            }
            Err(refusal) => {
                self.at = self.data.len();
                Some(Err(refusal))
            }
        }
    }
}

impl core::iter::FusedIterator for Dirents<'_> {}
