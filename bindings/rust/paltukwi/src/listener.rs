//! A socket that clients connect to.

use crate::path::{LockFile, OwnPath};
use std::error::Error;
use std::ffi::OsString;
use std::os::fd::{AsFd, BorrowedFd};
use std::os::unix::fs::FileTypeExt;
use std::os::unix::net::{UnixListener, UnixStream};
use std::path::{Path, PathBuf};
use std::{env, fmt, fs, io};

/// How many names [`Listener::bind_in`] tries: `eis-0` to `eis-31`.
pub const MOST_NAMES: u32 = 32;

/// A socket that listens on a path, which is removed when this is dropped.
#[derive(Debug)]
pub struct Listener {
    // In this order they are dropped: while the path is there, it is locked.
    path: OwnPath,
    socket: UnixListener,
    _lock: Option<LockFile>,
}

impl Listener {
    /// Listens on a path, on which nothing stands yet. No lock is taken.
    ///
    /// # Errors
    ///
    /// `Path`, with what the system says: something stands there (`AddrInUse`), the folder isn't there (`NotFound`), it may not
    /// be written to (`PermissionDenied`), or the path is too long (`InvalidInput`). Nothing is left behind.
    pub fn bind(path: impl AsRef<Path>) -> Result<Listener, BindError> {
        let path = path.as_ref();
        Listener::bind_locked(path, None).map_err(|error| BindError::at(path, error))
    }

    /// Listens in the folder that `XDG_RUNTIME_DIR` names, on the first of `eis-0`, `eis-1` and so on that no other server has
    /// locked, as libei and the crate reis do.
    ///
    /// # Errors
    ///
    /// `NoRuntimeFolder`, where the variable isn't set to an absolute path; those of [`bind_in`](Listener::bind_in).
    pub fn bind_auto() -> Result<Listener, BindError> {
        match env::var_os("XDG_RUNTIME_DIR").map(PathBuf::from) {
            Some(folder) if folder.is_absolute() => Listener::bind_in(folder),
            _ => Err(BindError::NoRuntimeFolder),
        }
    }

    /// Listens in this folder, as [`bind_auto`](Listener::bind_auto) does in that of `XDG_RUNTIME_DIR`.
    ///
    /// The lock is that of a file beside the socket, `eis-0.lock`, which is removed with it. A socket that a server left behind
    /// when it died is removed.
    ///
    /// # Errors
    ///
    /// `NoNameFree`, where all names are locked; `Path`, with what the system says. Nothing is left behind.
    pub fn bind_in(folder: impl AsRef<Path>) -> Result<Listener, BindError> {
        for number in 0..MOST_NAMES {
            let path = folder.as_ref().join(format!("eis-{number}"));
            let mut lock_path = OsString::from(&path);
            lock_path.push(".lock");
            let lock_path = PathBuf::from(lock_path);
            let lock = LockFile::take(&lock_path);
            if let Some(lock) = lock.map_err(|error| BindError::at(&lock_path, error))? {
                return remove_socket(&path)
                    .and_then(|()| Listener::bind_locked(&path, Some(lock)))
                    .map_err(|error| BindError::at(&path, error));
            }
        }
        Err(BindError::NoNameFree)
    }

    fn bind_locked(path: &Path, lock: Option<LockFile>) -> io::Result<Listener> {
        let path = std::path::absolute(path)?;
        let socket = UnixListener::bind(&path)?;
        let path = OwnPath::new(path)?;
        socket.set_nonblocking(true)?;
        Ok(Listener { path, socket, _lock: lock })
    }

    /// The path, from the root.
    #[must_use]
    pub fn path(&self) -> &Path {
        self.path.path()
    }

    /// The next client that wants to connect; `None` where none does now.
    ///
    /// The socket goes to [`Connection::open`](crate::Connection::open), on the thread that is to serve it.
    ///
    /// # Errors
    ///
    /// What the system says: so many descriptors are open that there is no room for one more, or memory ran out. The client
    /// waits still.
    pub fn accept(&self) -> io::Result<Option<UnixStream>> {
        match self.socket.accept() {
            Ok((stream, _)) => Ok(Some(stream)),
            Err(error) if error.kind() == io::ErrorKind::WouldBlock => Ok(None),
            Err(error) => Err(error),
        }
    }
}

/// Removes a socket, where one stands at the path.
fn remove_socket(path: &Path) -> io::Result<()> {
    match fs::symlink_metadata(path) {
        Ok(data) if data.file_type().is_socket() => fs::remove_file(path),
        Err(error) if error.kind() != io::ErrorKind::NotFound => Err(error),
        _ => Ok(()),
    }
}

impl AsFd for Listener {
    fn as_fd(&self) -> BorrowedFd<'_> {
        self.socket.as_fd()
    }
}

/// Why there is no listener.
#[derive(Debug)]
#[non_exhaustive]
pub enum BindError {
    /// `XDG_RUNTIME_DIR` isn't set to an absolute path.
    NoRuntimeFolder,
    /// All names are locked by other servers.
    NoNameFree,
    /// What the system says of a path.
    Path {
        /// The path of the socket, or of its lock.
        path: PathBuf,
        /// What is wrong there.
        error: io::Error,
    },
}

impl BindError {
    fn at(path: &Path, error: io::Error) -> BindError {
        let path = path.to_path_buf();
        BindError::Path { path, error }
    }
}

impl fmt::Display for BindError {
    fn fmt(&self, f: &mut fmt::Formatter<'_>) -> fmt::Result {
        match self {
            BindError::NoRuntimeFolder => {
                f.write_str("XDG_RUNTIME_DIR isn't set to an absolute path")
            }
            BindError::NoNameFree => {
                write!(f, "all names from eis-0 to eis-{} are taken", MOST_NAMES - 1)
            }
            BindError::Path { path, error } => write!(f, "{}: {error}", path.display()),
        }
    }
}

impl Error for BindError {
    fn source(&self) -> Option<&(dyn Error + 'static)> {
        match self {
            BindError::Path { error, .. } => Some(error),
            BindError::NoRuntimeFolder | BindError::NoNameFree => None,
        }
    }
}
