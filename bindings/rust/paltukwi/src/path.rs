//! Files that a program makes and takes away again.

use crate::system;
use std::fs::{self, File, Metadata, OpenOptions};
use std::io;
use std::os::unix::fs::{MetadataExt, OpenOptionsExt};
use std::path::{Path, PathBuf};

/// What tells a file from every other: its device and its number there.
type Identity = (u64, u64);

fn identity(data: &Metadata) -> Identity {
    (data.dev(), data.ino())
}

/// A path that is removed when this is dropped, unless something else stands there by then.
#[derive(Debug)]
pub struct OwnPath {
    path: PathBuf,
    file: Identity,
}

impl OwnPath {
    /// The path, with what stands there now.
    pub fn new(path: PathBuf) -> io::Result<OwnPath> {
        let file = identity(&fs::symlink_metadata(&path)?);
        Ok(OwnPath { path, file })
    }

    /// The path.
    pub fn path(&self) -> &Path {
        &self.path
    }
}

impl Drop for OwnPath {
    fn drop(&mut self) {
        if fs::symlink_metadata(&self.path).is_ok_and(|data| identity(&data) == self.file) {
            // Nobody is left to whom an error could be told.
            let _ = fs::remove_file(&self.path);
        }
    }
}

/// A file that this process has locked. It is removed, and then unlocked, when this is dropped.
#[derive(Debug)]
pub struct LockFile {
    _path: OwnPath,
    _file: File,
}

impl LockFile {
    /// Locks the file at the path, and makes it where there is none; `None` where another has it locked.
    pub fn take(path: &Path) -> io::Result<Option<LockFile>> {
        loop {
            let file = OpenOptions::new()
                .read(true)
                .write(true)
                .create(true)
                .truncate(false)
                .mode(0o660)
                .open(path)?;
            if !system::try_lock(&file)? {
                return Ok(None);
            }
            // Its last owner may have removed it before it was locked here: then it is no longer the one at the path.
            let locked = identity(&file.metadata()?);
            if fs::metadata(path).is_ok_and(|data| identity(&data) == locked) {
                let path = path.to_path_buf();
                let own = OwnPath { path, file: locked };
                return Ok(Some(LockFile { _path: own, _file: file }));
            }
        }
    }
}
