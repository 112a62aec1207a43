//! How a session or a link ends, and why a client is told so.

use crate::ErrorKind;
use paltukwi_sys as sys;
use std::error::Error;
use std::fmt;

/// How a session or a link ended.
#[derive(Clone, Debug, PartialEq, Eq)]
pub enum End {
    /// The client disconnected.
    Disconnected,
    /// No more came, after the handshake.
    EndOfInput,
    /// The client was told so, by [`Link::disconnect`](crate::Link::disconnect), or since [`Policy::Strict`](crate::Policy::Strict)
    /// ends it. No session ends by it.
    Told,
    /// An error of the client's, or want of memory.
    Failed(SessionError),
}

impl End {
    /// The end of that number, and the text of an error; `None` where it goes on.
    pub(crate) fn of(end: sys::reis_end, text: impl FnOnce() -> String) -> Option<End> {
        match end {
            sys::REIS_END_GOES_ON => None,
            sys::REIS_END_DISCONNECTED => Some(End::Disconnected),
            sys::REIS_END_END_OF_INPUT => Some(End::EndOfInput),
            sys::REIS_END_TOLD => Some(End::Told),
            error => Some(End::Failed(SessionError::new(error, text()))),
        }
    }
}

impl fmt::Display for End {
    fn fmt(&self, f: &mut fmt::Formatter<'_>) -> fmt::Result {
        match self {
            End::Disconnected => f.write_str("the client disconnected"),
            End::EndOfInput => f.write_str("the client closed its socket"),
            End::Told => f.write_str("the client was told so"),
            End::Failed(error) => error.fmt(f),
        }
    }
}

/// The error that ended a session or a link.
#[derive(Clone, Debug, PartialEq, Eq)]
pub struct SessionError {
    number: u32,
    text: String,
}

impl SessionError {
    pub(crate) fn new(end: sys::reis_end, text: String) -> SessionError {
        SessionError { number: end.0, text }
    }

    /// Which error it is.
    #[must_use]
    pub fn kind(&self) -> ErrorKind {
        ErrorKind::of(sys::reis_end(self.number))
    }

    /// Its number in `reis.h`.
    #[must_use]
    pub fn number(&self) -> u32 {
        self.number
    }

    /// The library's text of it; empty where memory for it ran out. The name of an interface in it is the client's: it may
    /// hold what a terminal obeys. Shown by `Display`, such letters are escaped. Of a link it is the name of the error alone,
    /// as "parse_header_length".
    #[must_use]
    pub fn text(&self) -> &str {
        &self.text
    }
}

impl fmt::Display for SessionError {
    fn fmt(&self, f: &mut fmt::Formatter<'_>) -> fmt::Result {
        if self.text.is_empty() {
            return write!(f, "error {}", self.number);
        }
        for letter in self.text.chars() {
            match letter {
                ' '..='~' => write!(f, "{letter}")?,
                _ => write!(f, "{}", letter.escape_default())?,
            }
        }
        Ok(())
    }
}

impl Error for SessionError {}

/// Why a client is told that its link ends.
#[derive(Clone, Copy, Debug, PartialEq, Eq, Hash)]
#[non_exhaustive]
pub enum Reason {
    /// The server is done.
    Disconnected,
    /// Something went wrong.
    Error,
    /// The client did what its context type doesn't allow.
    Mode,
    /// The client broke the protocol.
    Protocol,
    /// The client sent a value that isn't allowed.
    Value,
    /// The bytes between the two failed.
    Transport,
    /// Any other number, which is sent as it is.
    Other(u32),
}

impl Reason {
    /// Its number, as it crosses the wire.
    pub(crate) fn raw(self) -> sys::reis_reason {
        match self {
            Reason::Disconnected => sys::REIS_REASON_DISCONNECTED,
            Reason::Error => sys::REIS_REASON_ERROR,
            Reason::Mode => sys::REIS_REASON_MODE,
            Reason::Protocol => sys::REIS_REASON_PROTOCOL,
            Reason::Value => sys::REIS_REASON_VALUE,
            Reason::Transport => sys::REIS_REASON_TRANSPORT,
            Reason::Other(number) => sys::reis_reason(number),
        }
    }
}
