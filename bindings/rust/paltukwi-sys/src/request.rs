//! Requests: their kinds, and a request with a view of its fields for each kind.

/// A kind of requests: one of the numbers below, each with the view of a `reis_request` that has its fields, or one that is to
/// come, which is to be passed over.
#[repr(transparent)]
#[derive(Clone, Copy, Debug, PartialEq, Eq, Hash)]
pub struct reis_kind(pub u32);

/// The client ends the connection.
pub const REIS_KIND_DISCONNECT: reis_kind = reis_kind(1);
/// It wants devices of these capabilities (`bind`).
pub const REIS_KIND_BIND: reis_kind = reis_kind(2);
/// It wants the device no more.
pub const REIS_KIND_DEVICE_CLOSED: reis_kind = reis_kind(3);
/// It asks for one more device with these (`request_device`).
pub const REIS_KIND_REQUEST_DEVICE: reis_kind = reis_kind(4);
/// The inputs of the device before it belong together (`frame`).
pub const REIS_KIND_FRAME: reis_kind = reis_kind(5);
/// It has taken note of the device.
pub const REIS_KIND_READY: reis_kind = reis_kind(6);
/// It begins to send input of the device (`start_emulating`).
pub const REIS_KIND_START_EMULATING: reis_kind = reis_kind(7);
/// It sends no more (`stop_emulating`).
pub const REIS_KIND_STOP_EMULATING: reis_kind = reis_kind(8);
/// The pointer moved by a distance (`pointer_motion`).
pub const REIS_KIND_POINTER_MOTION: reis_kind = reis_kind(9);
/// The pointer moved to a position in a region (`pointer_motion_absolute`).
pub const REIS_KIND_POINTER_MOTION_ABSOLUTE: reis_kind = reis_kind(10);
/// A button went down or up (`button`).
pub const REIS_KIND_BUTTON: reis_kind = reis_kind(11);
/// It scrolled by a distance (`scroll_delta`).
pub const REIS_KIND_SCROLL_DELTA: reis_kind = reis_kind(12);
/// Scrolling stopped (`scroll_stop`).
pub const REIS_KIND_SCROLL_STOP: reis_kind = reis_kind(13);
/// Scrolling stopped, and nothing may scroll on by itself (`scroll_cancel`).
pub const REIS_KIND_SCROLL_CANCEL: reis_kind = reis_kind(14);
/// It scrolled by steps (`scroll_discrete`).
pub const REIS_KIND_SCROLL_DISCRETE: reis_kind = reis_kind(15);
/// A key went down or up (`key`).
pub const REIS_KIND_KEY: reis_kind = reis_kind(16);
/// A touch begins (`touch_down`).
pub const REIS_KIND_TOUCH_DOWN: reis_kind = reis_kind(17);
/// A touch moved (`touch_motion`).
pub const REIS_KIND_TOUCH_MOTION: reis_kind = reis_kind(18);
/// A touch ended (`touch_up`).
pub const REIS_KIND_TOUCH_UP: reis_kind = reis_kind(19);
/// A touch ended and is not to count (`touch_cancel`).
pub const REIS_KIND_TOUCH_CANCEL: reis_kind = reis_kind(20);
/// A keysym went down or up (`text_keysym`).
pub const REIS_KIND_TEXT_KEYSYM: reis_kind = reis_kind(21);
/// A text (`text_utf8`): see `reis_session_request_text`.
pub const REIS_KIND_TEXT_UTF8: reis_kind = reis_kind(22);
/// Fingers moved together (`gesture_swipe`).
pub const REIS_KIND_GESTURE_SWIPE: reis_kind = reis_kind(23);
/// Fingers moved apart or together (`gesture_pinch`).
pub const REIS_KIND_GESTURE_PINCH: reis_kind = reis_kind(24);
/// The handshake is done: see `reis_connection_client`.
pub const REIS_KIND_CONNECTED: reis_kind = reis_kind(25);
/// The client wants the seat no more: see `reis_connection_remove_seat`.
pub const REIS_KIND_SEAT_RELEASED: reis_kind = reis_kind(26);
/// The client answered a ping (`pong`).
pub const REIS_KIND_PONG: reis_kind = reis_kind(27);

/// A field: it stands where a number of eight bytes would.
#[repr(C, align(8))]
#[derive(Clone, Copy, Debug, Default, PartialEq)]
pub struct Field<T>(pub T);

/// A mask of capabilities.
#[repr(C)]
#[derive(Clone, Copy, Debug)]
#[allow(missing_docs)]
pub struct reis_capabilities {
    pub capabilities: Field<u64>,
}

/// The last serial of the server that the client knew of.
#[repr(C)]
#[derive(Clone, Copy, Debug)]
#[allow(missing_docs)]
pub struct reis_serial {
    pub last_serial: Field<u32>,
}

/// The last serial, and the client's number of this stretch of input.
#[repr(C)]
#[derive(Clone, Copy, Debug)]
#[allow(missing_docs)]
pub struct reis_sequence {
    pub last_serial: Field<u32>,
    pub sequence: Field<u32>,
}

/// A distance in logical pixels.
#[repr(C)]
#[derive(Clone, Copy, Debug)]
#[allow(missing_docs)]
pub struct reis_distance {
    pub dx: Field<f32>,
    pub dy: Field<f32>,
}

/// A position in logical pixels.
#[repr(C)]
#[derive(Clone, Copy, Debug)]
#[allow(missing_docs)]
pub struct reis_position {
    pub x: Field<f32>,
    pub y: Field<f32>,
}

/// A code of `linux/input-event-codes.h`, as `BTN_LEFT`; the state is 1 where it goes down and 0 where it goes up.
#[repr(C)]
#[derive(Clone, Copy, Debug)]
#[allow(missing_docs)]
pub struct reis_button {
    pub button: Field<u32>,
    pub state: Field<u32>,
}

/// 1 where the axis is meant, and 0 where it isn't.
#[repr(C)]
#[derive(Clone, Copy, Debug)]
#[allow(missing_docs)]
pub struct reis_axes {
    pub x: Field<u32>,
    pub y: Field<u32>,
}

/// A click of a wheel is 120.
#[repr(C)]
#[derive(Clone, Copy, Debug)]
#[allow(missing_docs)]
pub struct reis_clicks {
    pub dx: Field<i32>,
    pub dy: Field<i32>,
}

/// A code of `linux/input-event-codes.h`, as `KEY_A`; the state is 1 where it goes down and 0 where it goes up.
#[repr(C)]
#[derive(Clone, Copy, Debug)]
#[allow(missing_docs)]
pub struct reis_key {
    pub key: Field<u32>,
    pub state: Field<u32>,
}

/// The client's number of the touch, and a position in logical pixels.
#[repr(C)]
#[derive(Clone, Copy, Debug)]
#[allow(missing_docs)]
pub struct reis_touch {
    pub touch_id: Field<u32>,
    pub x: Field<f32>,
    pub y: Field<f32>,
}

/// The client's number of the touch.
#[repr(C)]
#[derive(Clone, Copy, Debug)]
#[allow(missing_docs)]
pub struct reis_touch_end {
    pub touch_id: Field<u32>,
}

/// A keysym, by its number in XKB; the state is 1 where it goes down and 0 where it goes up.
#[repr(C)]
#[derive(Clone, Copy, Debug)]
#[allow(missing_docs)]
pub struct reis_keysym {
    pub keysym: Field<u32>,
    pub state: Field<u32>,
}

/// The length of a text in bytes, 1 to `REIS_MOST_TEXT`.
#[repr(C)]
#[derive(Clone, Copy, Debug)]
#[allow(missing_docs)]
pub struct reis_text {
    pub length: Field<u64>,
}

/// How many fingers, and a distance in logical pixels.
#[repr(C)]
#[derive(Clone, Copy, Debug)]
#[allow(missing_docs)]
pub struct reis_swipe {
    pub fingers: Field<u32>,
    pub dx: Field<f32>,
    pub dy: Field<f32>,
}

/// How far apart the fingers are, against where they began.
#[repr(C)]
#[derive(Clone, Copy, Debug)]
#[allow(missing_docs)]
pub struct reis_pinch {
    pub scale: Field<f32>,
}

/// The id that `reis_connection_ping` told, and a number of the client's choice.
#[repr(C)]
#[derive(Clone, Copy, Debug)]
#[allow(missing_docs)]
pub struct reis_pong {
    pub ping: Field<u64>,
    pub callback_data: Field<u64>,
}

/// The fields of a request, in the order of the view of its kind; those that the kind hasn't are 0.
#[repr(C)]
#[derive(Clone, Copy)]
#[allow(missing_docs)]
pub union reis_fields {
    pub fields: [u64; 4],
    pub bind: reis_capabilities,
    pub request_device: reis_capabilities,
    pub frame: reis_serial,
    pub start_emulating: reis_sequence,
    pub stop_emulating: reis_serial,
    pub pointer_motion: reis_distance,
    pub pointer_motion_absolute: reis_position,
    pub button: reis_button,
    pub scroll_delta: reis_distance,
    pub scroll_stop: reis_axes,
    pub scroll_cancel: reis_axes,
    pub scroll_discrete: reis_clicks,
    pub key: reis_key,
    pub touch_down: reis_touch,
    pub touch_motion: reis_touch,
    pub touch_up: reis_touch_end,
    pub touch_cancel: reis_touch_end,
    pub text_keysym: reis_keysym,
    pub text_utf8: reis_text,
    pub gesture_swipe: reis_swipe,
    pub gesture_pinch: reis_pinch,
    pub pong: reis_pong,
}

/// What a client asks for.
///
/// `seat` and `device` are ids, told apart by their numbers; 0 where the kind has none. `time` is in microseconds, as the
/// client sent it in its frame; 0 where the kind has none. C has the views of the fields in the request itself, without the
/// name `of`.
#[repr(C)]
#[derive(Clone, Copy)]
#[allow(missing_docs)]
pub struct reis_request {
    pub kind: reis_kind,
    pub seat: u64,
    pub device: u64,
    pub time: u64,
    pub of: reis_fields,
}

impl reis_request {
    /// A request of no kind, for the library to write over.
    #[must_use]
    pub const fn none() -> reis_request {
        reis_request {
            kind: reis_kind(0),
            seat: 0,
            device: 0,
            time: 0,
            of: reis_fields { fields: [0; 4] },
        }
    }
}
