//! A client's connection, for a policy of one's own.

use crate::{reis_answer, reis_context_type, reis_end, reis_request};
use core::ffi::c_char;

/// A connection, or none where it is null.
///
/// It may be moved, and then the old word is not used any more.
#[repr(C)]
#[derive(Debug)]
pub struct reis_connection {
    at: *mut u8,
}

impl reis_connection {
    /// No connection: what [`reis_connection_start`] wants.
    #[must_use]
    pub const fn none() -> reis_connection {
        reis_connection { at: core::ptr::null_mut() }
    }
}

/// Why a client is told that its connection ends: one of the numbers below, or any other.
#[repr(transparent)]
#[derive(Clone, Copy, Debug, PartialEq, Eq, Hash)]
pub struct reis_reason(pub u32);

/// The server is done.
pub const REIS_REASON_DISCONNECTED: reis_reason = reis_reason(0);
/// Something went wrong.
pub const REIS_REASON_ERROR: reis_reason = reis_reason(1);
/// The client did what its context type doesn't allow.
pub const REIS_REASON_MODE: reis_reason = reis_reason(2);
/// The client broke the protocol.
pub const REIS_REASON_PROTOCOL: reis_reason = reis_reason(3);
/// The client sent a value that isn't allowed.
pub const REIS_REASON_VALUE: reis_reason = reis_reason(4);
/// The bytes between the two failed.
pub const REIS_REASON_TRANSPORT: reis_reason = reis_reason(5);

/// A flag of [`reis_connection_start`]: [`reis_connection_next_request`] refuses what libeis refuses of a client and the protocol
/// leaves open. `reis.h` says what is dropped then, and what ends the client.
pub const REIS_STRICT: u32 = 1;

/// What a device is.
#[repr(transparent)]
#[derive(Clone, Copy, Debug, PartialEq, Eq, Hash)]
pub struct reis_device_type(pub u32);

/// It has regions, and its distances are in logical pixels.
pub const REIS_DEVICE_VIRTUAL: reis_device_type = reis_device_type(1);
/// It has a size.
pub const REIS_DEVICE_PHYSICAL: reis_device_type = reis_device_type(2);

/// What a keymap is.
#[repr(transparent)]
#[derive(Clone, Copy, Debug, PartialEq, Eq, Hash)]
pub struct reis_keymap_type(pub u32);

/// There is none.
pub const REIS_KEYMAP_NONE: reis_keymap_type = reis_keymap_type(0);
/// The text of a keymap, as libxkbcommon writes it.
pub const REIS_KEYMAP_XKB: reis_keymap_type = reis_keymap_type(1);

/// A region in which a device moves. Its mapping id is a part of `mapping_ids` of the device.
#[repr(C)]
#[derive(Clone, Copy, Debug, Default)]
#[allow(missing_docs)]
pub struct reis_region {
    pub x: u32,
    pub y: u32,
    pub width: u32,
    pub height: u32,
    pub scale: f32,
    pub mapping_id: u32,
    pub mapping_id_length: u32,
}

/// A device as it is announced. `size` is the size of this struct. What is 0 or null isn't there.
#[repr(C)]
#[derive(Clone, Copy, Debug)]
#[allow(missing_docs)]
pub struct reis_device {
    pub size: usize,
    pub name: *const c_char,
    pub name_length: usize,
    pub capabilities: u64,
    pub r#type: reis_device_type,
    pub width: u32,
    pub height: u32,
    pub keymap_type: reis_keymap_type,
    pub keymap: u32,
    pub keymap_size: u32,
    pub regions: *const reis_region,
    pub region_count: usize,
    pub mapping_ids: *const c_char,
    pub mapping_ids_length: usize,
}

extern "C" {
    /// Starts a connection in a word that is zero. Its greeting waits to be written. `flags` is 0 or [`REIS_STRICT`].
    pub fn reis_connection_start(
        connection: *mut reis_connection,
        serial: u32,
        flags: u32,
    ) -> reis_answer;

    /// As `reis_session_feed`; nothing is done about what the client asks.
    pub fn reis_connection_feed(
        connection: *mut reis_connection,
        bytes: *const u8,
        count: usize,
        handles: *const u32,
        handle_count: usize,
        time: u64,
    ) -> reis_answer;

    /// As `reis_session_end_of_input`.
    pub fn reis_connection_end_of_input(connection: *mut reis_connection) -> reis_answer;

    /// As `reis_session_unsent`. All handles are to be passed with the first of the bytes.
    pub fn reis_connection_unsent(
        connection: *mut reis_connection,
        bytes: *mut *const u8,
        count: *mut usize,
        handles: *mut *const u32,
        handle_count: *mut usize,
    ) -> reis_answer;

    /// Says that the first so many bytes were written, and with the first of them all handles that waited.
    pub fn reis_connection_sent(connection: *mut reis_connection, bytes: usize) -> reis_answer;

    /// As `reis_session_next_request`. With [`REIS_STRICT`] it may end the client, and may answer `REIS_NO_MEMORY`: nothing is
    /// lost then, and the next call goes on.
    pub fn reis_connection_next_request(
        connection: *mut reis_connection,
        request: *mut reis_request,
    ) -> reis_answer;

    /// As `reis_session_request_text`.
    pub fn reis_connection_request_text(
        connection: *mut reis_connection,
        text: *mut u8,
        room: usize,
        length: *mut usize,
    ) -> reis_answer;

    /// As `reis_session_client`, from the handshake on, also once the connection is over.
    pub fn reis_connection_client(
        connection: *mut reis_connection,
        context_type: *mut reis_context_type,
        name: *mut u8,
        room: usize,
        length: *mut usize,
    ) -> reis_answer;

    /// As `reis_session_end`.
    pub fn reis_connection_end(connection: *mut reis_connection, end: *mut reis_end)
        -> reis_answer;

    /// Tells the client that the connection ends, why, and in a text for people, if there is one.
    pub fn reis_connection_disconnect(
        connection: *mut reis_connection,
        reason: reis_reason,
        explanation: *const c_char,
        length: usize,
    ) -> reis_answer;

    /// As `reis_session_free`.
    pub fn reis_connection_free(connection: *mut reis_connection) -> reis_answer;

    /// Asks the client to answer, and tells the ping's id, which `REIS_KIND_PONG` bears.
    pub fn reis_connection_ping(connection: *mut reis_connection, ping: *mut u64) -> reis_answer;

    /// Announces a seat, and tells its id.
    pub fn reis_connection_add_seat(
        connection: *mut reis_connection,
        name: *const c_char,
        length: usize,
        capabilities: u64,
        seat: *mut u64,
    ) -> reis_answer;

    /// Takes a seat away, behind its devices.
    pub fn reis_connection_remove_seat(connection: *mut reis_connection, seat: u64) -> reis_answer;

    /// Announces a device of a seat, and tells its id. A keymap's descriptor stays the program's.
    pub fn reis_connection_add_device(
        connection: *mut reis_connection,
        seat: u64,
        described: *const reis_device,
        device: *mut u64,
    ) -> reis_answer;

    /// Takes a device away.
    pub fn reis_connection_remove_device(
        connection: *mut reis_connection,
        device: u64,
    ) -> reis_answer;

    /// Tells the client that the device takes input.
    pub fn reis_connection_resume(connection: *mut reis_connection, device: u64) -> reis_answer;

    /// Tells the client that the device takes none.
    pub fn reis_connection_pause(connection: *mut reis_connection, device: u64) -> reis_answer;

    /// Tells whether the device has the interface of this one capability left.
    pub fn reis_connection_device_has(
        connection: *mut reis_connection,
        device: u64,
        capability: u64,
        has: *mut u32,
    ) -> reis_answer;

    /// Tells the client which modifiers hold on the device's keyboard.
    pub fn reis_connection_modifiers(
        connection: *mut reis_connection,
        device: u64,
        depressed: u32,
        locked: u32,
        latched: u32,
        group: u32,
    ) -> reis_answer;

    /// Tells a receiver that the device begins to send input.
    pub fn reis_connection_start_emulating(
        connection: *mut reis_connection,
        device: u64,
        sequence: u32,
    ) -> reis_answer;

    /// Tells a receiver that it sends no more.
    pub fn reis_connection_stop_emulating(
        connection: *mut reis_connection,
        device: u64,
    ) -> reis_answer;

    /// Tells a receiver that what came since the last frame of the device belongs together.
    pub fn reis_connection_frame(
        connection: *mut reis_connection,
        device: u64,
        time: u64,
    ) -> reis_answer;

    /// Tells a receiver of an input, which is told as a request says it.
    pub fn reis_connection_send(
        connection: *mut reis_connection,
        input: *const reis_request,
        text: *const c_char,
        length: usize,
    ) -> reis_answer;
}

// The layout that the library has.
const _: () = {
    assert!(size_of::<reis_connection>() == 8 && size_of::<reis_device>() == 88);
    assert!(size_of::<reis_region>() == 28 && core::mem::offset_of!(reis_region, scale) == 16);
};
