//! What a call answers.

/// What a call answers: one of the numbers below, or one that is to come. Where it isn't `REIS_OK`, nothing changed but the
/// counts, lengths and ids that the call says.
#[repr(transparent)]
#[derive(Clone, Copy, Debug, PartialEq, Eq, Hash)]
pub struct reis_answer(pub u32);

/// It did what it says.
pub const REIS_OK: reis_answer = reis_answer(0);
/// There is no session or connection: none was started, or it was freed.
pub const REIS_NO_SESSION: reis_answer = reis_answer(1);
/// `start`: one is there already.
pub const REIS_HAS_SESSION: reis_answer = reis_answer(2);
/// A bit outside `REIS_ALL_CAPABILITIES`, or one that the seat or the device hasn't.
pub const REIS_CAPABILITIES: reis_answer = reis_answer(3);
/// Memory ran out.
pub const REIS_NO_MEMORY: reis_answer = reis_answer(4);
/// The session or the connection is over.
pub const REIS_OVER: reis_answer = reis_answer(5);
/// `feed`: no byte.
pub const REIS_EMPTY: reis_answer = reis_answer(6);
/// `feed`: more than `REIS_MOST_BYTES`.
pub const REIS_TOO_LONG: reis_answer = reis_answer(7);
/// `feed`: more than `REIS_MOST_HANDLES`; `add_device`: as many would wait.
pub const REIS_TOO_MANY_HANDLES: reis_answer = reis_answer(8);
/// There is no further request, no text, or no client that is known yet.
pub const REIS_NOTHING: reis_answer = reis_answer(9);
/// The text has more bytes than there is room for.
pub const REIS_NO_ROOM: reis_answer = reis_answer(10);
/// `sent`: so much doesn't wait.
pub const REIS_NOT_UNSENT: reis_answer = reis_answer(11);
/// A pointer is NULL, and the count beside it, if it has one, isn't 0.
pub const REIS_NULL: reis_answer = reis_answer(12);
/// The handshake isn't done.
pub const REIS_NOT_CONNECTED: reis_answer = reis_answer(13);
/// There is no seat or device of that id, or it is there no more.
pub const REIS_GONE: reis_answer = reis_answer(14);
/// The client isn't a receiver.
pub const REIS_WRONG_ROLE: reis_answer = reis_answer(15);
/// A keymap for a device without a keyboard.
pub const REIS_NO_KEYBOARD: reis_answer = reis_answer(16);
/// A text is so long that its message would have more than 1048576 bytes.
pub const REIS_MESSAGE_TOO_LONG: reis_answer = reis_answer(17);
/// Too few ids are left.
pub const REIS_IDS_EXHAUSTED: reis_answer = reis_answer(18);
/// A number or a text that stands for nothing: see the call.
pub const REIS_INVALID: reis_answer = reis_answer(19);
/// A struct has a size that the library doesn't know.
pub const REIS_SIZE: reis_answer = reis_answer(20);
