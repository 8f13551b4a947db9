//! The files of a directory, which is never left.
//!
//! A place is a handle that was opened without following a link, and the next name is looked up in
//! that very handle (Linux has it as /proc/self/fd/N). So it does not matter what is renamed or
//! replaced by a link in the meantime. A symbolic link is shown as one, and is neither followed nor
//! opened; `..` goes to the place that was walked from, and stays at the root there.

use std::ffi::OsString;
use std::fs::{self, File, Metadata, OpenOptions};
use std::io;
use std::os::fd::AsRawFd;
use std::os::unix::fs::{FileTypeExt, MetadataExt, OpenOptionsExt};
use std::path::{Path, PathBuf};
use std::rc::Rc;

use sheafsledge::{Dirent, Gid, Qid, Refusal, Rgetattr, Text};

/// What a client is told of a failure: Linux's number for it.
#[derive(Clone, Copy, Debug, PartialEq, Eq)]
pub struct Errno(pub u32);

impl Errno {
    pub const NO_ENTRY: Self = Self(2);
    pub const IO: Self = Self(5);
    pub const BAD_FID: Self = Self(9);
    pub const NO_ACCESS: Self = Self(13);
    pub const NO_DIRECTORY: Self = Self(20);
    pub const INVALID: Self = Self(22);
    pub const READ_ONLY: Self = Self(30);
    pub const LINK: Self = Self(40);
    pub const TOO_LONG: Self = Self(90);
    pub const NOT_SUPPORTED: Self = Self(95);
}

impl From<io::Error> for Errno {
    fn from(error: io::Error) -> Self {
        let number = error
            .raw_os_error()
            .and_then(|number| number.try_into().ok());
        number.map_or(Self::IO, Self)
    }
}

/// What a reply could not hold.
impl From<Refusal> for Errno {
    fn from(_: Refusal) -> Self {
        Self::INVALID
    }
}

/// A handle that only names a file: nothing is read by it.
const O_PATH: i32 = 0o10_000_000;

/// Its number is another on ARM.
const O_NOFOLLOW: i32 = match cfg!(any(target_arch = "arm", target_arch = "aarch64")) {
    true => 0o100_000,
    false => 0o400_000,
};

/// Of an Rgetattr's fields those that are filled in: all but the last four.
const BASIC: u64 = 0x7ff;

pub struct Place {
    handle: File,
    /// None for the root.
    above: Option<Rc<Place>>,
}

impl Place {
    pub fn root(directory: &Path) -> io::Result<Rc<Self>> {
        // A link that the root is given as is followed: who starts the server means where it leads.
        let directory = fs::canonicalize(directory)?;
        let handle = named(&directory)?;
        match handle.metadata()?.is_dir() {
            true => Ok(Rc::new(Self {
                handle,
                above: None,
            })),
            false => Err(io::ErrorKind::NotADirectory.into()),
        }
    }

    pub fn walk(self: &Rc<Self>, name: &str) -> Result<Rc<Self>, Errno> {
        if !self.is_directory()? {
            return Err(Errno::NO_DIRECTORY);
        }
        match name {
            ".." => Ok(self.above.as_ref().unwrap_or(self).clone()),
            "." => Ok(self.clone()),
            _ if name.is_empty() || name.contains('/') => Err(Errno::INVALID),
            _ => Ok(Rc::new(Self {
                handle: named(&self.path().join(name))?,
                above: Some(self.clone()),
            })),
        }
    }

    /// Where the system has this very file, whatever becomes of its name.
    fn path(&self) -> PathBuf {
        PathBuf::from(format!("/proc/self/fd/{}", self.handle.as_raw_fd()))
    }

    pub fn is_directory(&self) -> io::Result<bool> {
        Ok(self.handle.metadata()?.is_dir())
    }

    pub fn qid(&self) -> io::Result<Qid> {
        Ok(qid(&self.handle.metadata()?))
    }

    /// Opens a file for reading. Of what is none, a pipe would keep the server waiting.
    pub fn open(&self) -> Result<File, Errno> {
        let kind = self.handle.metadata()?.file_type();
        if kind.is_symlink() {
            return Err(Errno::LINK);
        }
        match kind.is_file() {
            true => Ok(File::open(self.path())?),
            false => Err(Errno::NO_ACCESS),
        }
    }

    pub fn attributes(&self) -> io::Result<Rgetattr> {
        let data = self.handle.metadata()?;
        Ok(Rgetattr {
            valid: BASIC,
            qid: qid(&data),
            mode: data.mode(),
            uid: data.uid(),
            gid: Gid(data.gid()),
            nlink: data.nlink(),
            rdev: data.rdev(),
            size: data.size(),
            blksize: data.blksize(),
            blocks: data.blocks(),
            atime_sec: data.atime() as u64,
            atime_nsec: data.atime_nsec() as u64,
            mtime_sec: data.mtime() as u64,
            mtime_nsec: data.mtime_nsec() as u64,
            ctime_sec: data.ctime() as u64,
            ctime_nsec: data.ctime_nsec() as u64,
            btime_sec: 0,
            btime_nsec: 0,
            gen: 0,
            data_version: 0,
        })
    }

    /// The directory as it is now.
    pub fn list(self: &Rc<Self>) -> Result<Listing, Errno> {
        let above = self.above.as_ref().unwrap_or(self);
        let mut entries = vec![
            Entry::of(".".into(), &self.handle.metadata()?),
            Entry::of("..".into(), &above.handle.metadata()?),
        ];
        for entry in fs::read_dir(self.path())? {
            let entry = entry?;
            // One that has gone since is no fault.
            if let Ok(data) = entry.metadata() {
                entries.push(Entry::of(entry.file_name(), &data));
            }
        }
        Ok(Listing(entries))
    }
}

fn named(path: &Path) -> io::Result<File> {
    let flags = O_PATH | O_NOFOLLOW;
    OpenOptions::new().read(true).custom_flags(flags).open(path)
}

/// The kind, for a client that asks no further; a version of 0 says that nothing may be cached.
fn qid(data: &Metadata) -> Qid {
    let kind = data.file_type();
    Qid {
        ty: match () {
            _ if kind.is_dir() => 0x80,
            _ if kind.is_symlink() => 0x02,
            _ => 0,
        },
        version: 0,
        path: data.ino(),
    }
}

/// The entries of a directory. An entry's offset is the number of the one after it.
pub struct Listing(Vec<Entry>);

struct Entry {
    qid: Qid,
    ty: u8,
    name: OsString,
}

impl Listing {
    pub fn from(&self, offset: u64) -> impl Iterator<Item = Dirent<'_>> {
        let start = usize::try_from(offset).unwrap_or(usize::MAX);
        let numbered = self.0.iter().zip(1..).skip(start);
        // A name that no frame can hold is left out.
        numbered.filter_map(|(entry, offset)| {
            Some(Dirent {
                qid: entry.qid,
                offset,
                ty: entry.ty,
                name: Text::from_os(&entry.name).ok()?,
            })
        })
    }
}

impl Entry {
    /// The kinds have Linux's numbers, as in `readdir`.
    fn of(name: OsString, data: &Metadata) -> Self {
        let kind = data.file_type();
        let ty = match () {
            _ if kind.is_fifo() => 1,
            _ if kind.is_char_device() => 2,
            _ if kind.is_dir() => 4,
            _ if kind.is_block_device() => 6,
            _ if kind.is_file() => 8,
            _ if kind.is_symlink() => 10,
            _ if kind.is_socket() => 12,
            _ => 0,
        };
        let qid = qid(data);
        Self { qid, ty, name }
    }
}
