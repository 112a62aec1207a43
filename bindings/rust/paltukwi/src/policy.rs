//! What a link refuses.

use paltukwi_sys as sys;

/// What a link refuses of a client where the protocol leaves it open.
#[derive(Clone, Copy, Debug, Default, PartialEq, Eq, Hash)]
#[non_exhaustive]
pub enum Policy {
    /// Nothing: what a client asks by the protocol is handed out, and the program judges it.
    #[default]
    Protocol,
    /// What libeis refuses. [`next_request`](crate::Link::next_request) judges the start and the stop of emulating, frames and
    /// inputs, by what is so when it is called. A device is paused until [`resume`](crate::Link::resume), and from
    /// [`pause`](crate::Link::pause) on. The client emulates on it from the start that was handed out to its stop, or to the next of
    /// these two calls, behind which no key and no button of it is down.
    ///
    /// Dropped are all of them that are of a paused device, and each request of a device that was taken away; and a key or a
    /// button that goes down where it is down, or up where it isn't.
    ///
    /// An input or a frame where the client doesn't emulate, a second start and a stop without one, of a device that isn't
    /// paused, end the client, and so does each of them that comes from a receiver: it is told so, as by
    /// [`disconnect`](crate::Link::disconnect), for [`Reason::Protocol`](crate::Reason::Protocol) and with a text, and
    /// [`end`](crate::Link::end) is [`Told`](crate::End::Told), where nothing ended the link before.
    Strict,
}

impl Policy {
    /// The flags of `reis_connection_start`.
    pub(crate) fn flags(self) -> u32 {
        match self {
            Policy::Protocol => 0,
            Policy::Strict => sys::REIS_STRICT,
        }
    }
}
