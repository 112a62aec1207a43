//! Who a client is.

use paltukwi_sys as sys;

/// What a client said of itself in the handshake.
#[derive(Clone, Debug, PartialEq, Eq)]
pub struct Client {
    /// Its name, of its own choice; `None` where it gave none. It may hold what a terminal obeys.
    pub name: Option<String>,
    /// What it is.
    pub context_type: ContextType,
}

impl Client {
    /// The client of that name, which is empty where it gave none.
    pub(crate) fn of(name: String, context_type: sys::reis_context_type) -> Client {
        let name = Some(name).filter(|name| !name.is_empty());
        Client { name, context_type: ContextType::of(context_type) }
    }
}

/// What a client is.
#[derive(Clone, Copy, Debug, PartialEq, Eq, Hash)]
#[non_exhaustive]
pub enum ContextType {
    /// It takes input events.
    Receiver,
    /// It sends them: requests with a time are those of a sender.
    Sender,
    /// A number that these bindings don't know.
    Unknown(u32),
}

impl ContextType {
    pub(crate) fn of(number: sys::reis_context_type) -> ContextType {
        match number {
            sys::REIS_CONTEXT_RECEIVER => ContextType::Receiver,
            sys::REIS_CONTEXT_SENDER => ContextType::Sender,
            sys::reis_context_type(other) => ContextType::Unknown(other),
        }
    }
}
