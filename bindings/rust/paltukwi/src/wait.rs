//! Waiting at several sockets at once, for a program that has no loop of its own.

use crate::system;
use std::ffi::c_int;
use std::io;
use std::os::fd::BorrowedFd;
use std::time::Duration;

/// What a program waits for at a socket.
#[derive(Clone, Copy, Debug, PartialEq, Eq, Hash)]
pub enum Interest {
    /// That there is something to read, or a client to accept.
    Read,
    /// That something can be written.
    Write,
    /// Nothing: it is passed over.
    Nothing,
}

/// Waits until something can be done at one of the sockets: whether it can, for each of them.
///
/// All are false where the time ran out first, or a signal came. It is `poll` of the system: a socket whose other end is closed,
/// or that failed, counts as one where something can be done.
///
/// # Errors
///
/// What `poll` fails with: there are more sockets than the process may have open, or memory ran out.
pub fn wait(
    sockets: &[(BorrowedFd<'_>, Interest)],
    most: Option<Duration>,
) -> io::Result<Vec<bool>> {
    match system::poll_all(sockets, milliseconds(most)) {
        Err(error) if error.kind() == io::ErrorKind::Interrupted => Ok(vec![false; sockets.len()]),
        answer => answer,
    }
}

/// The whole milliseconds that aren't less, as far as the system counts; -1 is without end.
fn milliseconds(most: Option<Duration>) -> c_int {
    match most {
        None => -1,
        Some(time) => c_int::try_from(time.as_nanos().div_ceil(1_000_000)).unwrap_or(c_int::MAX),
    }
}
