//! A session with one client, without its socket.

use crate::answers::{fed, lent, text};
use crate::errors::{FeedError, NotUnsent, StartError};
use crate::{Capabilities, Client, End, Request};
use paltukwi_sys as sys;
use std::ptr::null;

/// The most bytes of a piece.
pub const MOST_BYTES: usize = sys::REIS_MOST_BYTES;

/// The most handles of a piece.
pub const MOST_HANDLES: usize = sys::REIS_MOST_HANDLES;

/// What a session begins with.
#[derive(Clone, Copy, Debug, PartialEq, Eq)]
pub struct Setup {
    /// The serial that the connection bears at first.
    pub serial: u32,
    /// What the one seat offers.
    pub capabilities: Capabilities,
    /// The most pieces that the session takes, where one more ends it; `None` for as many as come. `Some(u32::MAX)` is the
    /// library's number for `None`.
    pub pieces: Option<u32>,
}

impl Default for Setup {
    /// Serial 1, all capabilities, and as many pieces as come.
    fn default() -> Setup {
        Setup { serial: 1, capabilities: Capabilities::ALL, pieces: None }
    }
}

/// What waits to be written to the client.
///
/// A handle is to be passed with the first of the bytes. A session has none where none were handed in; those of a
/// [`Link`](crate::Link) are descriptors of keymaps.
#[derive(Clone, Copy, Debug, PartialEq, Eq)]
pub struct Unsent<'a, Handle = u32> {
    /// The bytes, in their order.
    pub bytes: &'a [u8],
    /// The handles, in their order.
    pub handles: &'a [Handle],
}

/// A server's session with one client: bytes in, requests and bytes out.
///
/// It does nothing by itself. Hand in what came ([`feed`](Session::feed)), write what waits ([`unsent`](Session::unsent),
/// [`sent`](Session::sent)), act on what the client asks for ([`next_request`](Session::next_request)), and let go of it when it
/// is over and all is written ([`end`](Session::end)). [`Connection`](crate::Connection) does this over a socket.
///
/// A session stays on its thread: it is neither `Send` nor `Sync`.
///
/// ```compile_fail,E0277
/// fn goes_to_another_thread<T: Send>() {}
/// goes_to_another_thread::<paltukwi::Session>();
/// ```
///
/// What is lent is read before the next call:
///
/// ```compile_fail,E0499
/// fn keeps_what_is_lent(session: &mut paltukwi::Session) {
///     let unsent = session.unsent();
///     session.next_request();
///     assert!(unsent.bytes.is_empty());
/// }
/// ```
#[derive(Debug)]
pub struct Session {
    raw: sys::reis_session,
}

impl Session {
    /// Starts a session, whose greeting waits to be written.
    ///
    /// # Errors
    ///
    /// `Version`, where the library is of another version than these bindings; `Capabilities`, where a bit of the set stands for
    /// none; `NoMemory`.
    pub fn start(setup: &Setup) -> Result<Session, StartError> {
        check_version()?;
        let mut raw = sys::reis_session::none();
        let (bits, pieces) = (setup.capabilities.bits(), setup.pieces);
        let pieces = pieces.unwrap_or(sys::REIS_NO_PIECE_LIMIT);
        // SAFETY: the word is zero.
        match unsafe { sys::reis_session_start(&mut raw, setup.serial, bits, pieces) } {
            sys::REIS_OK => Ok(Session { raw }),
            sys::REIS_CAPABILITIES => Err(StartError::Capabilities),
            _ => Err(StartError::NoMemory),
        }
    }

    /// Hands in one piece of what came from the client, cut anywhere: 1 to [`MOST_BYTES`] bytes, and at most [`MOST_HANDLES`]
    /// numbers of descriptors that came with them. No request takes a descriptor: a program may close each as it comes, and hand
    /// in no handles. `time` is that of each frame that the server makes itself meanwhile: see [`now`](crate::now).
    ///
    /// It may end the session: see [`end`](Session::end).
    ///
    /// # Errors
    ///
    /// `Over`, where the session is over; else `Empty`, `TooLong`, `TooManyHandles`, in this order. All is as it was then.
    pub fn feed(&mut self, bytes: &[u8], handles: &[u32], time: u64) -> Result<(), FeedError> {
        let (at, count) = (bytes.as_ptr(), bytes.len());
        let (handles_at, handle_count) = (handles.as_ptr(), handles.len());
        // SAFETY: each pointer and count are one slice's, and the word is a session's.
        fed(unsafe {
            sys::reis_session_feed(&mut self.raw, at, count, handles_at, handle_count, time)
        })
    }

    /// Says that no more comes from the client. The session is over then.
    ///
    /// # Errors
    ///
    /// `Over`, where it is over already.
    pub fn end_of_input(&mut self) -> Result<(), FeedError> {
        // SAFETY: the word is a session's.
        fed(unsafe { sys::reis_session_end_of_input(&mut self.raw) })
    }

    /// Lends all that waits to be written to the client. It waits until [`sent`](Session::sent) counts it. It works after the end
    /// too.
    pub fn unsent(&mut self) -> Unsent<'_> {
        let (mut bytes, mut count) = (null(), 0);
        let (mut handles, mut handle_count) = (null(), 0);
        // SAFETY: the word is a session's, and the others are of the types that are written.
        unsafe {
            sys::reis_session_unsent(
                &mut self.raw,
                &mut bytes,
                &mut count,
                &mut handles,
                &mut handle_count,
            );
        }
        // SAFETY: the library lends so many at these places until the next call on the session, which has to wait until
        // this borrow of it is over.
        unsafe { Unsent { bytes: lent(bytes, count), handles: lent(handles, handle_count) } }
    }

    /// Says that the first so many bytes and handles were written: they wait no more.
    ///
    /// # Errors
    ///
    /// `NotUnsent`, where so many don't wait: all wait still.
    pub fn sent(&mut self, bytes: usize, handles: usize) -> Result<(), NotUnsent> {
        // SAFETY: the word is a session's.
        match unsafe { sys::reis_session_sent(&mut self.raw, bytes, handles) } {
            sys::REIS_OK => Ok(()),
            _ => Err(NotUnsent),
        }
    }

    /// The next request of the client, which waits no more, in the order in which they were made. It works after the end too.
    pub fn next_request(&mut self) -> Option<Request> {
        let mut written = sys::reis_request::none();
        // SAFETY: the word is a session's, and the request is borrowed alone.
        match unsafe { sys::reis_session_next_request(&mut self.raw, &mut written) } {
            sys::REIS_OK => Some(Request::of(&written, || self.request_text())),
            _ => None,
        }
    }

    fn request_text(&mut self) -> String {
        // SAFETY: the pointer and the room are one vector's, and the word is a session's.
        let (_, text) = text(|at, room, length| unsafe {
            sys::reis_session_request_text(&mut self.raw, at, room, length)
        });
        text
    }

    /// Who the client is, while its connection stands: `None` until the handshake is done, and once the session is over.
    pub fn client(&mut self) -> Option<Client> {
        let mut context_type = sys::reis_context_type(0);
        // SAFETY: the pointer and the room are one vector's, and the word is a session's.
        let (answer, name) = text(|at, room, length| unsafe {
            sys::reis_session_client(&mut self.raw, &mut context_type, at, room, length)
        });
        (answer == sys::REIS_OK).then(|| Client::of(name, context_type))
    }

    /// How the session ended; `None` while it goes on.
    pub fn end(&mut self) -> Option<End> {
        let mut end = sys::REIS_END_GOES_ON;
        // SAFETY: the word is a session's, and the end is borrowed alone.
        unsafe { sys::reis_session_end(&mut self.raw, &mut end) };
        End::of(end, || self.end_text())
    }

    fn end_text(&mut self) -> String {
        // SAFETY: the pointer and the room are one vector's, and the word is a session's.
        let (_, text) = text(|at, room, length| unsafe {
            sys::reis_session_end_text(&mut self.raw, at, room, length)
        });
        text
    }
}

impl Drop for Session {
    fn drop(&mut self) {
        // SAFETY: the word is a session's, and is used no more.
        unsafe { sys::reis_session_free(&mut self.raw) };
    }
}

/// Whether the library fits these bindings: [`Session::start`] and [`Link::start`](crate::Link::start) ask it too. A program whose
/// library is loaded when it is run can ask it at its beginning.
///
/// # Errors
///
/// `Version`, where the first two parts of their versions differ.
pub fn check_version() -> Result<(), StartError> {
    // SAFETY: the call takes nothing.
    let library = unsafe { sys::reis_version() };
    if sys::version_matches(library) {
        Ok(())
    } else {
        Err(StartError::Version { library })
    }
}
