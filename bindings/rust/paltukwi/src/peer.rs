//! A link over a socket.

use crate::socket::{Socket, PIECE};
use crate::wait::Interest;
use crate::{
    Capabilities, Client, DeviceId, DeviceSetup, End, Input, Link, Modifiers, NoMemory, PingId,
    Policy, Reason, Request, SeatId, StartError, TellError,
};
use std::io;
use std::os::fd::{AsFd, BorrowedFd};
use std::os::unix::net::UnixStream;

/// A client: its socket and its [`Link`], for a policy of the program's own. [`Connection`](crate::Connection) has the library's.
///
/// Wait until something can be done at the socket, for what [`interest`](Peer::interest) says; call [`turn`](Peer::turn); act on
/// each [`next_request`](Peer::next_request); and drop it when it [`is_done`](Peer::is_done), or when `turn` failed. What the
/// client is told is written by the turns that follow. One that is over for what it sent can still be told so, by
/// [`disconnect`](Peer::disconnect): then it is done behind that.
///
/// No call waits, whether the socket is set to or not. Nothing is read while something waits to be written. What a client that
/// reads nothing is told fills the memory: a program that tells it more and more looks at [`interest`](Peer::interest) before.
///
/// **Descriptors.** Those of keymaps are passed, and then closed: they are duplicates, and the program's stay the program's.
/// Each that the client passes is closed as it comes, since no request takes one, and counted:
/// [`closed_descriptors`](Peer::closed_descriptors).
///
/// Like its link it stays on its thread.
///
/// ```no_run
/// use paltukwi::{now, wait, Capabilities, DeviceSetup, Peer, Request};
/// use std::os::fd::AsFd;
///
/// # fn serve(stream: std::os::unix::net::UnixStream) -> Result<(), Box<dyn std::error::Error>> {
/// let mut client = Peer::open(stream, 1)?;
/// while !client.is_done() {
///     wait(&[(client.as_fd(), client.interest())], None)?;
///     client.turn(now())?;
///     while let Some(request) = client.next_request() {
///         if request == Request::Connected {
///             client.add_seat(Some("default"), Capabilities::KEYBOARD)?;
///         }
///         if let Request::Bind { seat, capabilities } = request {
///             let device = client.add_device(seat, &DeviceSetup { capabilities, ..DeviceSetup::default() })?;
///             client.resume(device)?;
///         }
///     }
/// }
/// # Ok(())
/// # }
/// ```
#[derive(Debug)]
pub struct Peer {
    link: Link,
    socket: Socket,
    writes: bool,
    over: bool,
}

/// What comes and goes.
impl Peer {
    /// Starts a link over the socket, which refuses no more than the protocol does. Its greeting is written by the first turn.
    /// `serial` is the one that it bears at first.
    ///
    /// # Errors
    ///
    /// Those of [`Link::start`]; then the socket is closed.
    pub fn open(stream: UnixStream, serial: u32) -> Result<Peer, StartError> {
        Peer::open_with(stream, serial, Policy::Protocol)
    }

    /// Starts a link over the socket, which refuses what this policy does.
    ///
    /// # Errors
    ///
    /// Those of [`open`](Peer::open).
    pub fn open_with(stream: UnixStream, serial: u32, policy: Policy) -> Result<Peer, StartError> {
        let link = Link::start_with(serial, policy)?;
        Ok(Peer { link, socket: Socket::new(stream), writes: true, over: false })
    }

    /// What can be done next at the socket: something is to be written, or a piece is to be read, or it is done.
    #[must_use]
    pub fn interest(&self) -> Interest {
        match (self.writes, self.over) {
            (true, _) => Interest::Write,
            (false, false) => Interest::Read,
            (false, true) => Interest::Nothing,
        }
    }

    /// Whether the link is over and all is written.
    #[must_use]
    pub fn is_done(&self) -> bool {
        self.interest() == Interest::Nothing
    }

    /// Does what can be done now: writes what waits, then reads one piece, and writes what is replied to it. It does nothing
    /// where nothing can be done. `time` is that of each frame that the server makes itself meanwhile: see [`now`](crate::now).
    ///
    /// # Errors
    ///
    /// What the socket fails with: the client can't be served any more. Requests that were made before still wait.
    pub fn turn(&mut self, time: u64) -> io::Result<()> {
        self.write()?;
        if self.interest() == Interest::Read && self.read(time)? {
            self.write()?;
        }
        Ok(())
    }

    /// The next request of the client, which waits no more. By [`Policy::Strict`] it may end the client, which the next turn
    /// tells it; and it is `None` too where memory runs out.
    pub fn next_request(&mut self) -> Option<Request> {
        self.try_next_request().ok().flatten()
    }

    /// As [`next_request`](Peer::next_request).
    ///
    /// # Errors
    ///
    /// Those of [`Link::try_next_request`].
    pub fn try_next_request(&mut self) -> Result<Option<Request>, NoMemory> {
        let request = self.link.try_next_request();
        self.note();
        request
    }

    /// Who the client is: `None` until the handshake is done.
    pub fn client(&mut self) -> Option<Client> {
        self.link.client()
    }

    /// How the link ended; `None` while it goes on. Something may still wait to be written.
    pub fn end(&mut self) -> Option<End> {
        self.link.end()
    }

    /// How many descriptors the client passed; each was closed as it came.
    #[must_use]
    pub fn closed_descriptors(&self) -> u64 {
        self.socket.closed_descriptors()
    }

    /// Reads one piece, and feeds it to the link; the end of the input too. Whether there was one.
    fn read(&mut self, time: u64) -> io::Result<bool> {
        let mut piece = [0; PIECE];
        let Some(count) = self.socket.read(&mut piece)? else {
            return Ok(false);
        };
        let taken = match count {
            0 => self.link.end_of_input(),
            _ => self.link.feed(&piece[..count], &[], time),
        };
        self.note();
        taken.map(|()| true).map_err(io::Error::other)
    }

    /// Writes what waits, as far as the socket takes it.
    fn write(&mut self) -> io::Result<()> {
        while self.writes {
            let unsent = self.link.unsent();
            if unsent.bytes.is_empty() {
                self.writes = false;
                break;
            }
            let Some(count) = self.socket.write(unsent.bytes, unsent.handles)? else {
                break;
            };
            self.link.sent(count).map_err(io::Error::other)?;
        }
        Ok(())
    }

    /// Something may wait to be written, and the link may be over.
    fn note(&mut self) {
        self.writes = !self.link.unsent().bytes.is_empty();
        self.over = self.link.end().is_some();
    }
}

/// The calls of a link, each with its parameters and its answer.
macro_rules! calls_of_link {
    ($($call:ident($($parameter:ident: $of:ty),*) -> $answer:ty;)+) => {
        /// What the client is told, as [`Link`] tells it.
        impl Peer {
            $(
                #[doc = concat!("As [`Link::", stringify!($call), "`].")]
                ///
                /// # Errors
                ///
                #[doc = concat!("Those of [`Link::", stringify!($call), "`].")]
                pub fn $call(&mut self, $($parameter: $of),*) -> Result<$answer, TellError> {
                    let answer = self.link.$call($($parameter),*)?;
                    self.note();
                    Ok(answer)
                }
            )+
        }
    };
}

calls_of_link! {
    ping() -> PingId;
    add_seat(name: Option<&str>, capabilities: Capabilities) -> SeatId;
    remove_seat(seat: SeatId) -> ();
    add_device(seat: SeatId, setup: &DeviceSetup<'_>) -> DeviceId;
    remove_device(device: DeviceId) -> ();
    resume(device: DeviceId) -> ();
    pause(device: DeviceId) -> ();
    device_has(device: DeviceId, one: Capabilities) -> bool;
    modifiers(device: DeviceId, modifiers: Modifiers) -> ();
    start_emulating(device: DeviceId, sequence: u32) -> ();
    stop_emulating(device: DeviceId) -> ();
    frame(device: DeviceId, time: u64) -> ();
    send(device: DeviceId, input: &Input) -> ();
    disconnect(reason: Reason, text: Option<&str>) -> ();
}

/// For a loop of the program's own. Read and write nothing there.
impl AsFd for Peer {
    fn as_fd(&self) -> BorrowedFd<'_> {
        self.socket.as_fd()
    }
}
