//! Why a call did nothing.

use paltukwi_sys as sys;
use std::error::Error;
use std::{fmt, io};

/// Why no session or link was started.
#[derive(Clone, Copy, Debug, PartialEq, Eq)]
#[non_exhaustive]
pub enum StartError {
    /// The library is of another version than these bindings: its `reis_version`.
    Version {
        /// As `reis.h` writes it: the three parts of the version in a byte each.
        library: u32,
    },
    /// A bit stands for no capability. A link begins without any.
    Capabilities,
    /// Memory ran out.
    NoMemory,
}

impl fmt::Display for StartError {
    fn fmt(&self, f: &mut fmt::Formatter<'_>) -> fmt::Result {
        match self {
            StartError::Version { library } => write!(
                f,
                "libreis has version {}.{}.{}, and these bindings are for {}",
                library >> 16,
                library >> 8 & 255,
                library & 255,
                sys::REIS_VERSION_TEXT
            ),
            StartError::Capabilities => f.write_str("a bit of the set stands for no capability"),
            StartError::NoMemory => f.write_str("memory ran out"),
        }
    }
}

impl Error for StartError {}

/// Why a piece wasn't taken: all is as it was.
#[derive(Clone, Copy, Debug, PartialEq, Eq)]
#[non_exhaustive]
pub enum FeedError {
    /// The session or the link is over.
    Over,
    /// The piece has no byte.
    Empty,
    /// The piece has more than [`MOST_BYTES`](crate::MOST_BYTES).
    TooLong,
    /// The piece has more than [`MOST_HANDLES`](crate::MOST_HANDLES).
    TooManyHandles,
}

impl fmt::Display for FeedError {
    fn fmt(&self, f: &mut fmt::Formatter<'_>) -> fmt::Result {
        f.write_str(match self {
            FeedError::Over => "the session or the link is over",
            FeedError::Empty => "the piece has no byte",
            FeedError::TooLong => "the piece has more than 65536 bytes",
            FeedError::TooManyHandles => "the piece has more than 64 handles",
        })
    }
}

impl Error for FeedError {}

/// So many bytes or handles don't wait to be written: all wait still.
#[derive(Clone, Copy, Debug, PartialEq, Eq)]
pub struct NotUnsent;

impl fmt::Display for NotUnsent {
    fn fmt(&self, f: &mut fmt::Formatter<'_>) -> fmt::Result {
        f.write_str("so much doesn't wait to be written")
    }
}

impl Error for NotUnsent {}

/// Memory ran out. Nothing is lost: the call made again goes on.
#[derive(Clone, Copy, Debug, PartialEq, Eq)]
pub struct NoMemory;

impl fmt::Display for NoMemory {
    fn fmt(&self, f: &mut fmt::Formatter<'_>) -> fmt::Result {
        f.write_str("memory ran out")
    }
}

impl Error for NoMemory {}

/// Why a client wasn't told what a call is for: all is as it was.
///
/// What these types rule out has no variant: a null, no link, and a text that isn't UTF-8.
#[derive(Clone, Copy, Debug, PartialEq, Eq)]
#[non_exhaustive]
pub enum TellError {
    /// The link is over, or the client was told already that it ends.
    Over,
    /// The handshake isn't done.
    NotConnected,
    /// There is no seat or device of the id, or it is there no more.
    Gone,
    /// The client isn't a receiver.
    WrongRole,
    /// A bit of the set stands for no capability, or is one that the seat or the device hasn't; or the set isn't one capability
    /// where it is to be one.
    Capabilities,
    /// A keymap for a device without a keyboard.
    NoKeyboard,
    /// More than [`MOST_HANDLES`](crate::MOST_HANDLES) would wait to be written.
    TooManyHandles,
    /// A text is so long that its message would have more than 1048576 bytes.
    MessageTooLong,
    /// Too few ids are left.
    IdsExhausted,
    /// Memory ran out.
    NoMemory,
    /// The descriptor of a keymap can't be duplicated.
    Descriptor {
        /// The number of the system's error, as `EMFILE`.
        code: i32,
    },
    /// A number or a text stands for nothing. Never: these types have no such.
    Invalid,
    /// The library doesn't know a description of this size. Never where it fits these bindings.
    Size,
    /// A number that these bindings don't know.
    Unknown {
        /// As `reis.h` of that library has it.
        number: u32,
    },
}

impl fmt::Display for TellError {
    fn fmt(&self, f: &mut fmt::Formatter<'_>) -> fmt::Result {
        f.write_str(match self {
            TellError::Over => "the link is over",
            TellError::NotConnected => "the handshake isn't done",
            TellError::Gone => "there is no such seat or device, or it is there no more",
            TellError::WrongRole => "the client isn't a receiver",
            TellError::Capabilities => {
                "the seat or the device hasn't this capability, or it is none"
            }
            TellError::NoKeyboard => "a keymap for a device without a keyboard",
            TellError::TooManyHandles => "more than 64 handles would wait to be written",
            TellError::MessageTooLong => "a message would have more than 1048576 bytes",
            TellError::IdsExhausted => "too few ids are left",
            TellError::NoMemory => "memory ran out",
            TellError::Invalid => "a number or a text stands for nothing",
            TellError::Size => "the library doesn't know a description of this size",
            TellError::Descriptor { code } => {
                let error = io::Error::from_raw_os_error(*code);
                return write!(f, "the keymap can't be passed: {error}");
            }
            TellError::Unknown { number } => return write!(f, "the library answers {number}"),
        })
    }
}

impl Error for TellError {}
