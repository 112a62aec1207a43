//! The errors that end a session, by name.

use paltukwi_sys as sys;

/// Which error ended a session: `REIS_END_..` of `reis.h`.
#[derive(Clone, Copy, Debug, PartialEq, Eq, Hash)]
#[non_exhaustive]
pub enum ErrorKind {
    /// No more came, before the connection.
    UnexpectedEof,
    /// More pieces came than the session takes.
    PieceLimit,
    /// More than 4096 handles would be unread.
    HandleLimit,
    /// Memory ran out.
    NoMemory,
    /// No id is left for a new object.
    IdsExhausted,
    /// An object has a version that doesn't serve.
    InvalidInterfaceVersion,
    /// Never.
    UnexpectedHandshakeEvent,
    /// Never: the program reads.
    ReadFault,
    /// Never: the program writes.
    WriteFault,
    /// Never.
    MessageTooLong,
    /// A message to an object that isn't the handshake.
    HandshakeInvalidObject,
    /// Never.
    HandshakeNonHandshakeEvent,
    /// The client lacks an interface that each session needs.
    HandshakeMissingInterface,
    /// The name or the context type came twice.
    HandshakeDuplicateEvent,
    /// The mask has a bit that the seat doesn't offer.
    RequestInvalidCapabilities,
    /// A touch that is down goes down.
    RequestDuplicatedTouchDown,
    /// Sixteen touches are down, and one more goes down.
    RequestTooManyTouches,
    /// The text has no bytes, or more than 254.
    RequestInvalidTextLength,
    /// It ends inside an argument.
    ParseEndOfMessage,
    /// A text isn't UTF-8.
    ParseUtf8,
    /// The client may not give this id to a new object.
    ParseInvalidId,
    /// No handle came with it.
    ParseNoFd,
    /// The interface has no message of this opcode.
    ParseInvalidOpcode,
    /// An enum has no such value.
    ParseInvalidVariant,
    /// No interface has this name.
    ParseInvalidInterface,
    /// The header's length is below 16 or above 1048576.
    ParseHeaderLength,
    /// Bytes are left over behind the arguments.
    ParseMessageLength,
    /// A text that must be there is null.
    ParseInvalidNull,
    /// Never: [`NoMemory`](ErrorKind::NoMemory).
    ParseNoMemory,
    /// Never: a server is sent no event.
    EventDeviceEventBeforeDone,
    /// Never: a server is sent no event.
    EventDeviceSetupEventAfterDone,
    /// Never: a server is sent no event.
    EventSeatSetupEventAfterDone,
    /// Never: a server is sent no event.
    EventSeatEventBeforeDone,
    /// Never: a server is sent no event.
    EventNoDeviceType,
    /// Never: a server is sent no event.
    EventUnexpectedHandshakeEvent,
    /// Never: a server is sent no event.
    EventUnknownCapabilityInterface,
    /// A number that these bindings don't know.
    Unknown(u32),
}

/// The kinds with their numbers.
const KINDS: [(sys::reis_end, ErrorKind); 36] = [
    (sys::REIS_END_ERROR_UNEXPECTED_EOF, ErrorKind::UnexpectedEof),
    (sys::REIS_END_ERROR_PIECE_LIMIT, ErrorKind::PieceLimit),
    (sys::REIS_END_ERROR_HANDLE_LIMIT, ErrorKind::HandleLimit),
    (sys::REIS_END_ERROR_NO_MEMORY, ErrorKind::NoMemory),
    (sys::REIS_END_ERROR_IDS_EXHAUSTED, ErrorKind::IdsExhausted),
    (sys::REIS_END_ERROR_INVALID_INTERFACE_VERSION, ErrorKind::InvalidInterfaceVersion),
    (sys::REIS_END_ERROR_UNEXPECTED_HANDSHAKE_EVENT, ErrorKind::UnexpectedHandshakeEvent),
    (sys::REIS_END_ERROR_READ_FAULT, ErrorKind::ReadFault),
    (sys::REIS_END_ERROR_WRITE_FAULT, ErrorKind::WriteFault),
    (sys::REIS_END_ERROR_MESSAGE_TOO_LONG, ErrorKind::MessageTooLong),
    (sys::REIS_END_HANDSHAKE_INVALID_OBJECT, ErrorKind::HandshakeInvalidObject),
    (sys::REIS_END_HANDSHAKE_NON_HANDSHAKE_EVENT, ErrorKind::HandshakeNonHandshakeEvent),
    (sys::REIS_END_HANDSHAKE_MISSING_INTERFACE, ErrorKind::HandshakeMissingInterface),
    (sys::REIS_END_HANDSHAKE_DUPLICATE_EVENT, ErrorKind::HandshakeDuplicateEvent),
    (sys::REIS_END_REQUEST_INVALID_CAPABILITIES, ErrorKind::RequestInvalidCapabilities),
    (sys::REIS_END_REQUEST_DUPLICATED_TOUCH_DOWN, ErrorKind::RequestDuplicatedTouchDown),
    (sys::REIS_END_REQUEST_TOO_MANY_TOUCHES, ErrorKind::RequestTooManyTouches),
    (sys::REIS_END_REQUEST_INVALID_TEXT_LENGTH, ErrorKind::RequestInvalidTextLength),
    (sys::REIS_END_PARSE_END_OF_MESSAGE, ErrorKind::ParseEndOfMessage),
    (sys::REIS_END_PARSE_UTF8, ErrorKind::ParseUtf8),
    (sys::REIS_END_PARSE_INVALID_ID, ErrorKind::ParseInvalidId),
    (sys::REIS_END_PARSE_NO_FD, ErrorKind::ParseNoFd),
    (sys::REIS_END_PARSE_INVALID_OPCODE, ErrorKind::ParseInvalidOpcode),
    (sys::REIS_END_PARSE_INVALID_VARIANT, ErrorKind::ParseInvalidVariant),
    (sys::REIS_END_PARSE_INVALID_INTERFACE, ErrorKind::ParseInvalidInterface),
    (sys::REIS_END_PARSE_HEADER_LENGTH, ErrorKind::ParseHeaderLength),
    (sys::REIS_END_PARSE_MESSAGE_LENGTH, ErrorKind::ParseMessageLength),
    (sys::REIS_END_PARSE_INVALID_NULL, ErrorKind::ParseInvalidNull),
    (sys::REIS_END_PARSE_NO_MEMORY, ErrorKind::ParseNoMemory),
    (sys::REIS_END_EVENT_DEVICE_EVENT_BEFORE_DONE, ErrorKind::EventDeviceEventBeforeDone),
    (sys::REIS_END_EVENT_DEVICE_SETUP_EVENT_AFTER_DONE, ErrorKind::EventDeviceSetupEventAfterDone),
    (sys::REIS_END_EVENT_SEAT_SETUP_EVENT_AFTER_DONE, ErrorKind::EventSeatSetupEventAfterDone),
    (sys::REIS_END_EVENT_SEAT_EVENT_BEFORE_DONE, ErrorKind::EventSeatEventBeforeDone),
    (sys::REIS_END_EVENT_NO_DEVICE_TYPE, ErrorKind::EventNoDeviceType),
    (sys::REIS_END_EVENT_UNEXPECTED_HANDSHAKE_EVENT, ErrorKind::EventUnexpectedHandshakeEvent),
    (sys::REIS_END_EVENT_UNKNOWN_CAPABILITY_INTERFACE, ErrorKind::EventUnknownCapabilityInterface),
];

impl ErrorKind {
    /// The kind of that number.
    pub(crate) fn of(number: sys::reis_end) -> ErrorKind {
        let known = KINDS.iter().find(|(end, _)| *end == number);
        known.map_or(ErrorKind::Unknown(number.0), |(_, kind)| *kind)
    }
}
