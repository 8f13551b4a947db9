//! A folder that is there until it is dropped, and what trees of files hold.

use std::os::unix::ffi::OsStringExt;
use std::os::unix::fs::MetadataExt;
use std::path::{Path, PathBuf};
use std::{env, fs, io, process};

pub struct Folder(pub PathBuf);

/// In memory if there is such a place: a server under test makes files by the thousand.
const MEMORY: &str = "/dev/shm";

impl Folder {
    pub fn new() -> io::Result<Self> {
        let name = format!("sheafsledge-server-{}", process::id());
        let places = [PathBuf::from(MEMORY), env::temp_dir()];
        let mut made = places.iter().map(|place| {
            let folder = place.join(&name);
            fs::create_dir(&folder).map(|()| Self(folder))
        });
        match made.next() {
            Some(Ok(folder)) => Ok(folder),
            _ => made.next().unwrap_or(Err(io::ErrorKind::NotFound.into())),
        }
    }

    /// A new folder in it.
    pub fn with(&self, name: &str) -> io::Result<PathBuf> {
        let folder = self.0.join(name);
        fs::create_dir(&folder)?;
        Ok(folder)
    }
}

impl Drop for Folder {
    fn drop(&mut self) {
        if let Err(error) = fs::remove_dir_all(&self.0) {
            eprintln!("server: {} stays: {error}", self.0.display());
        }
    }
}

/// A file of a tree: its path from the root, its mode, how many names it has, and what it holds.
pub type Held = (PathBuf, u32, u64, Vec<u8>);

/// All files of a tree, by their paths.
pub fn tree(root: &Path) -> io::Result<Vec<Held>> {
    let mut all = Vec::new();
    let mut left = vec![root.to_path_buf()];
    while let Some(folder) = left.pop() {
        for entry in fs::read_dir(&folder)? {
            let path = entry?.path();
            let data = fs::symlink_metadata(&path)?;
            let bytes = match data.file_type() {
                kind if kind.is_file() => fs::read(&path)?,
                kind if kind.is_symlink() => fs::read_link(&path)?.into_os_string().into_vec(),
                _ => Vec::new(),
            };
            if data.is_dir() {
                left.push(path.clone());
            }
            let from_root = path.strip_prefix(root).unwrap_or(&path).to_path_buf();
            all.push((from_root, data.mode(), data.nlink(), bytes));
        }
    }
    all.sort();
    Ok(all)
}
