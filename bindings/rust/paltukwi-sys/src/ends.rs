//! How a session ended.

/// How a session ended: one of the numbers below, or one that is to come, which is an error.
#[repr(transparent)]
#[derive(Clone, Copy, Debug, PartialEq, Eq, Hash)]
pub struct reis_end(pub u32);

/// It didn't.
pub const REIS_END_GOES_ON: reis_end = reis_end(0);
/// The client disconnected.
pub const REIS_END_DISCONNECTED: reis_end = reis_end(1);
/// No more came, after the handshake.
pub const REIS_END_END_OF_INPUT: reis_end = reis_end(2);
/// `reis_connection_disconnect` told the client so.
pub const REIS_END_TOLD: reis_end = reis_end(3);

// Errors.
/// No more came, before the connection.
pub const REIS_END_ERROR_UNEXPECTED_EOF: reis_end = reis_end(10);
/// More pieces came than the session takes.
pub const REIS_END_ERROR_PIECE_LIMIT: reis_end = reis_end(11);
/// More than 4096 handles would be unread.
pub const REIS_END_ERROR_HANDLE_LIMIT: reis_end = reis_end(12);
/// Memory ran out.
pub const REIS_END_ERROR_NO_MEMORY: reis_end = reis_end(13);
/// No id is left for a new object.
pub const REIS_END_ERROR_IDS_EXHAUSTED: reis_end = reis_end(14);
/// An object has a version that doesn't serve.
pub const REIS_END_ERROR_INVALID_INTERFACE_VERSION: reis_end = reis_end(15);
/// Never.
pub const REIS_END_ERROR_UNEXPECTED_HANDSHAKE_EVENT: reis_end = reis_end(16);
/// Never: the program reads.
pub const REIS_END_ERROR_READ_FAULT: reis_end = reis_end(17);
/// Never: the program writes.
pub const REIS_END_ERROR_WRITE_FAULT: reis_end = reis_end(18);
/// Never.
pub const REIS_END_ERROR_MESSAGE_TOO_LONG: reis_end = reis_end(19);

// Errors of the handshake.
/// A message to an object that isn't the handshake.
pub const REIS_END_HANDSHAKE_INVALID_OBJECT: reis_end = reis_end(20);
/// Never.
pub const REIS_END_HANDSHAKE_NON_HANDSHAKE_EVENT: reis_end = reis_end(21);
/// The client lacks an interface that each session needs.
pub const REIS_END_HANDSHAKE_MISSING_INTERFACE: reis_end = reis_end(22);
/// The name or the context type came twice.
pub const REIS_END_HANDSHAKE_DUPLICATE_EVENT: reis_end = reis_end(23);

// A request that doesn't fit the state.
/// The mask has a bit that the seat doesn't offer.
pub const REIS_END_REQUEST_INVALID_CAPABILITIES: reis_end = reis_end(30);
/// A touch that is down goes down.
pub const REIS_END_REQUEST_DUPLICATED_TOUCH_DOWN: reis_end = reis_end(31);
/// Sixteen touches are down, and one more goes down.
pub const REIS_END_REQUEST_TOO_MANY_TOUCHES: reis_end = reis_end(32);
/// The text has no bytes, or more than 254.
pub const REIS_END_REQUEST_INVALID_TEXT_LENGTH: reis_end = reis_end(33);

// A message that can't be read.
/// It ends inside an argument.
pub const REIS_END_PARSE_END_OF_MESSAGE: reis_end = reis_end(40);
/// A text isn't UTF-8.
pub const REIS_END_PARSE_UTF8: reis_end = reis_end(41);
/// The client may not give this id to a new object.
pub const REIS_END_PARSE_INVALID_ID: reis_end = reis_end(42);
/// No handle came with it.
pub const REIS_END_PARSE_NO_FD: reis_end = reis_end(43);
/// The interface has no message of this opcode.
pub const REIS_END_PARSE_INVALID_OPCODE: reis_end = reis_end(44);
/// An enum has no such value.
pub const REIS_END_PARSE_INVALID_VARIANT: reis_end = reis_end(45);
/// No interface has this name.
pub const REIS_END_PARSE_INVALID_INTERFACE: reis_end = reis_end(46);
/// The header's length is below 16 or above 1048576.
pub const REIS_END_PARSE_HEADER_LENGTH: reis_end = reis_end(47);
/// Bytes are left over behind the arguments.
pub const REIS_END_PARSE_MESSAGE_LENGTH: reis_end = reis_end(48);
/// A text that must be there is null.
pub const REIS_END_PARSE_INVALID_NULL: reis_end = reis_end(49);
/// Never: `REIS_END_ERROR_NO_MEMORY`.
pub const REIS_END_PARSE_NO_MEMORY: reis_end = reis_end(50);

// An event that doesn't fit the state: never, since a server is sent none.
/// Never: a server is sent no event.
pub const REIS_END_EVENT_DEVICE_EVENT_BEFORE_DONE: reis_end = reis_end(60);
/// Never: a server is sent no event.
pub const REIS_END_EVENT_DEVICE_SETUP_EVENT_AFTER_DONE: reis_end = reis_end(61);
/// Never: a server is sent no event.
pub const REIS_END_EVENT_SEAT_SETUP_EVENT_AFTER_DONE: reis_end = reis_end(62);
/// Never: a server is sent no event.
pub const REIS_END_EVENT_SEAT_EVENT_BEFORE_DONE: reis_end = reis_end(63);
/// Never: a server is sent no event.
pub const REIS_END_EVENT_NO_DEVICE_TYPE: reis_end = reis_end(64);
/// Never: a server is sent no event.
pub const REIS_END_EVENT_UNEXPECTED_HANDSHAKE_EVENT: reis_end = reis_end(65);
/// Never: a server is sent no event.
pub const REIS_END_EVENT_UNKNOWN_CAPABILITY_INTERFACE: reis_end = reis_end(66);
