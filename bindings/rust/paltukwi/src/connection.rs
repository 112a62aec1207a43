//! A session over a socket.

use crate::socket::{Socket, PIECE};
use crate::wait::Interest;
use crate::{Client, End, Request, Session, Setup, StartError};
use std::io;
use std::os::fd::{AsFd, BorrowedFd};
use std::os::unix::net::UnixStream;

/// A client: its socket and its session.
///
/// Wait until something can be done at the socket, for what [`interest`](Connection::interest) says; call
/// [`turn`](Connection::turn); act on each [`next_request`](Connection::next_request); and drop it when it
/// [`is_done`](Connection::is_done), or when `turn` failed.
///
/// No call waits, whether the socket is set to or not. Nothing is read while replies wait to be written, so a client that reads
/// none can't fill the memory. Such a client stays as long as its socket does: a program that wants its place lets go of it.
///
/// **Descriptors.** No request takes a descriptor, so each that the client passes is closed as it comes, and counted:
/// [`closed_descriptors`](Connection::closed_descriptors).
///
/// Like its session it stays on its thread.
#[derive(Debug)]
pub struct Connection {
    session: Session,
    socket: Socket,
    writes: bool,
    over: bool,
}

impl Connection {
    /// Starts a session over the socket. Its greeting is written by the first turn.
    ///
    /// # Errors
    ///
    /// Those of [`Session::start`]; then the socket is closed.
    pub fn open(stream: UnixStream, setup: &Setup) -> Result<Connection, StartError> {
        Ok(Connection {
            session: Session::start(setup)?,
            socket: Socket::new(stream),
            writes: true,
            over: false,
        })
    }

    /// What can be done next at the socket: replies are to be written, or a piece is to be read, or it is done.
    #[must_use]
    pub fn interest(&self) -> Interest {
        match (self.writes, self.over) {
            (true, _) => Interest::Write,
            (false, false) => Interest::Read,
            (false, true) => Interest::Nothing,
        }
    }

    /// Whether the session is over and all is written.
    #[must_use]
    pub fn is_done(&self) -> bool {
        self.interest() == Interest::Nothing
    }

    /// Does what can be done now: writes what waits, then reads one piece, and writes what is replied to it. It does nothing
    /// where nothing can be done. `time` is that of each frame that the server makes itself meanwhile: see [`now`](crate::now).
    ///
    /// # Errors
    ///
    /// What the socket fails with: the client can't be served any more. Requests that were made before still wait.
    pub fn turn(&mut self, time: u64) -> io::Result<()> {
        self.write()?;
        if self.interest() == Interest::Read && self.read(time)? {
            self.write()?;
        }
        Ok(())
    }

    /// The next request of the client, which waits no more.
    pub fn next_request(&mut self) -> Option<Request> {
        self.session.next_request()
    }

    /// Who the client is, while its connection stands.
    pub fn client(&mut self) -> Option<Client> {
        self.session.client()
    }

    /// How the session ended; `None` while it goes on. Replies may still wait to be written.
    pub fn end(&mut self) -> Option<End> {
        self.session.end()
    }

    /// How many descriptors the client passed; each was closed as it came.
    #[must_use]
    pub fn closed_descriptors(&self) -> u64 {
        self.socket.closed_descriptors()
    }

    /// Reads one piece, and feeds it to the session; the end of the input too. Whether there was one.
    fn read(&mut self, time: u64) -> io::Result<bool> {
        let mut piece = [0; PIECE];
        let Some(count) = self.socket.read(&mut piece)? else {
            return Ok(false);
        };
        let taken = match count {
            0 => self.session.end_of_input(),
            _ => self.session.feed(&piece[..count], &[], time),
        };
        self.over = self.session.end().is_some();
        self.writes = true;
        taken.map(|()| true).map_err(io::Error::other)
    }

    /// Writes what waits, as far as the socket takes it.
    fn write(&mut self) -> io::Result<()> {
        while self.writes {
            let unsent = self.session.unsent();
            let handles = unsent.handles.len();
            if unsent.bytes.is_empty() {
                self.writes = false;
                break;
            }
            let Some(count) = self.socket.write(unsent.bytes, &[])? else {
                break;
            };
            self.session.sent(count, handles).map_err(io::Error::other)?;
        }
        Ok(())
    }
}

/// For a loop of the program's own. Read and write nothing there.
impl AsFd for Connection {
    fn as_fd(&self) -> BorrowedFd<'_> {
        self.socket.as_fd()
    }
}
