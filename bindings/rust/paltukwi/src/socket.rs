//! A client's socket, which never waits.

use crate::system;
use std::io::{self, ErrorKind};
use std::os::fd::{AsFd, BorrowedFd, OwnedFd};
use std::os::unix::net::UnixStream;

/// The most bytes that are read at a time: they are one piece of the client's.
pub(crate) const PIECE: usize = 16384;

/// The socket, and how many descriptors came through it: each is closed as it comes, since no request takes one.
#[derive(Debug)]
pub(crate) struct Socket {
    stream: UnixStream,
    closed_descriptors: u64,
}

impl Socket {
    pub(crate) fn new(stream: UnixStream) -> Socket {
        Socket { stream, closed_descriptors: 0 }
    }

    /// How many descriptors the client passed.
    pub(crate) fn closed_descriptors(&self) -> u64 {
        self.closed_descriptors
    }

    /// Reads one piece: how many bytes, none at the end; `None` where nothing is there now.
    pub(crate) fn read(&mut self, piece: &mut [u8; PIECE]) -> io::Result<Option<usize>> {
        let receive = || system::receive(self.stream.as_fd(), piece);
        let Some((count, descriptors)) = unless_it_waits(receive)? else {
            return Ok(None);
        };
        self.closed_descriptors += descriptors.len() as u64;
        Ok(Some(count))
    }

    /// Writes the first bytes, and passes the descriptors with the first of them: how many; `None` where none can be written
    /// now.
    pub(crate) fn write(&self, bytes: &[u8], passed: &[OwnedFd]) -> io::Result<Option<usize>> {
        unless_it_waits(|| system::send_some(self.stream.as_fd(), bytes, passed))
    }
}

impl AsFd for Socket {
    fn as_fd(&self) -> BorrowedFd<'_> {
        self.stream.as_fd()
    }
}

/// What was done; `None` where it can't be done now. A signal that comes in between changes nothing.
fn unless_it_waits<T>(mut call: impl FnMut() -> io::Result<T>) -> io::Result<Option<T>> {
    loop {
        match call() {
            Ok(done) => return Ok(Some(done)),
            Err(error) if error.kind() == ErrorKind::WouldBlock => return Ok(None),
            Err(error) if error.kind() == ErrorKind::Interrupted => {}
            Err(error) => return Err(error),
        }
    }
}
