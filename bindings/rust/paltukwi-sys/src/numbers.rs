//! Versions, limits, capabilities and what a client is.

/// The first part of the version of `reis.h`.
pub const REIS_VERSION_MAJOR: u32 = 0;
/// The second part.
pub const REIS_VERSION_MINOR: u32 = 1;
/// The last part.
pub const REIS_VERSION_PATCH: u32 = 0;
/// The version of `reis.h` that these declarations are of, as one number.
pub const REIS_VERSION: u32 =
    (REIS_VERSION_MAJOR << 16) | (REIS_VERSION_MINOR << 8) | REIS_VERSION_PATCH;
/// The same as a text.
pub const REIS_VERSION_TEXT: &str = "0.1.0";

/// The most bytes of a piece.
pub const REIS_MOST_BYTES: usize = 65536;
/// The most handles of a piece.
pub const REIS_MOST_HANDLES: usize = 64;
/// The most bytes of the text of a request.
pub const REIS_MOST_TEXT: usize = 254;

/// In place of the most pieces that a session takes: it takes as many as come.
pub const REIS_NO_PIECE_LIMIT: u32 = 0xffff_ffff;

/// Motion of a pointer, by a distance.
pub const REIS_CAPABILITY_POINTER: u64 = 1;
/// Motion of a pointer, to a position.
pub const REIS_CAPABILITY_POINTER_ABSOLUTE: u64 = 2;
/// Keys.
pub const REIS_CAPABILITY_KEYBOARD: u64 = 4;
/// Touches.
pub const REIS_CAPABILITY_TOUCH: u64 = 8;
/// Scrolling.
pub const REIS_CAPABILITY_SCROLL: u64 = 16;
/// Buttons.
pub const REIS_CAPABILITY_BUTTON: u64 = 32;
/// Texts and keysyms.
pub const REIS_CAPABILITY_TEXT: u64 = 64;
/// Gestures.
pub const REIS_CAPABILITY_GESTURE: u64 = 128;
/// All of them.
pub const REIS_ALL_CAPABILITIES: u64 = 255;

/// What a client is: one of the numbers below, or one that is to come.
#[repr(transparent)]
#[derive(Clone, Copy, Debug, PartialEq, Eq, Hash)]
pub struct reis_context_type(pub u32);

/// It takes input events.
pub const REIS_CONTEXT_RECEIVER: reis_context_type = reis_context_type(1);
/// It sends them.
pub const REIS_CONTEXT_SENDER: reis_context_type = reis_context_type(2);
