//! What a client asks for, and the inputs among it, which a client that receives is told.

use crate::fields::{fields_of, Field, Fields, Part};
use crate::Capabilities;
use paltukwi_sys as sys;
use std::fmt;

/// The id of a seat: no connection gives it twice, and it is nothing to another one.
#[derive(Clone, Copy, Debug, PartialEq, Eq, PartialOrd, Ord, Hash)]
pub struct SeatId(pub u64);

/// The id of a device: no connection gives it twice, and it is nothing to another one.
#[derive(Clone, Copy, Debug, PartialEq, Eq, PartialOrd, Ord, Hash)]
pub struct DeviceId(pub u64);

/// The id of a ping: no connection gives it twice, and it is nothing to another one.
#[derive(Clone, Copy, Debug, PartialEq, Eq, PartialOrd, Ord, Hash)]
pub struct PingId(pub u64);

/// In hexadecimal digits.
impl fmt::Display for SeatId {
    fn fmt(&self, f: &mut fmt::Formatter<'_>) -> fmt::Result {
        write!(f, "{:x}", self.0)
    }
}

/// In hexadecimal digits.
impl fmt::Display for DeviceId {
    fn fmt(&self, f: &mut fmt::Formatter<'_>) -> fmt::Result {
        write!(f, "{:x}", self.0)
    }
}

/// In hexadecimal digits.
impl fmt::Display for PingId {
    fn fmt(&self, f: &mut fmt::Formatter<'_>) -> fmt::Result {
        write!(f, "{:x}", self.0)
    }
}

/// The type of what a request has besides its fields.
macro_rules! part {
    (seat) => {
        SeatId
    };
    (device) => {
        DeviceId
    };
    (time) => {
        u64
    };
}

/// The device among a request's parts, if it is there.
macro_rules! device_of {
    ($seat:ident) => {
        None
    };
    ($seat:ident $device:ident $($time:ident)?) => {
        Some(*$device)
    };
}

/// The time among a request's parts, if it is there.
macro_rules! time_of {
    ($seat:ident $device:ident $time:ident) => {
        Some(*$time)
    };
    ($($other:ident)+) => {
        None
    };
}

/// How a field is called and shown in a line.
macro_rules! show {
    ($f:ident, pressed, $value:ident) => {
        write!($f, " state={}", if *$value { "press" } else { "released" })
    };
    ($f:ident, capabilities, $value:ident) => {
        write!($f, " capabilities={}", $value.bits())
    };
    // a client's text may hold what a terminal obeys
    ($f:ident, text, $value:ident) => {{
        $f.write_str(" text=")?;
        $value.bytes().try_for_each(|byte| write!($f, "{byte:02x}"))
    }};
    ($f:ident, $name:ident, $value:ident) => {
        write!($f, " {}={}", stringify!($name), $value)
    };
}

/// The requests, a row each: those that are no input, and the inputs, which all are a device's and have a time. Both enums are
/// made of these rows.
macro_rules! requests {
    ({ $($request:tt)* } { $($(#[doc = $doc:literal])+ $name:ident = $kind:ident $line:literal { $($field:tt)* })+ }) => {
        request_enum! { $($request)* $($(#[doc = $doc])+ $name = $kind $line (seat device time) { $($field)* })+ }
        input_enum! { $($(#[doc = $doc])+ $name = $kind $line { $($field)* })+ }
    };
}

/// The enum of requests: of each its name, its kind and its name in the library, whose it is and when it was made, and its
/// fields in the library's order.
macro_rules! request_enum {
    ($($(#[doc = $doc:literal])+
    $name:ident = $kind:ident $line:literal ($($part:ident)+) { $($field:ident: $of:ty),* })+) => {
        /// A request of a client.
        ///
        /// A `time` is in microseconds, as the client sent it in its frame: an input bears the time of the
        /// [`Frame`](Request::Frame) that comes right behind the inputs that belong together. A distance or a position is in
        /// logical pixels. A `serial` is the last one that the client has seen. A `button` and a `key` are codes of
        /// `linux/input-event-codes.h`.
        #[derive(Clone, Debug, PartialEq)]
        #[non_exhaustive]
        #[allow(missing_docs)] // the fields: what they mean stands above, or at their variant
        pub enum Request {
            /// The client ends the connection.
            Disconnect,
            /// Of a [`Link`](crate::Link): the handshake is done, and the client is known. It comes once, before all others.
            Connected,
            /// Of a [`Link`](crate::Link): the client answered a ping, with a number of its own choice. It comes behind all that
            /// the client asked before it.
            Pong { ping: PingId, callback_data: u64 },
            $($(#[doc = $doc])+
            $name { $($part: part!($part),)+ $($field: $of),* },)+
            /// A kind that these bindings don't know: pass it over.
            Unknown { kind: u32 },
        }

        impl Request {
            /// The request that the library wrote. `text` is called where it has one.
            pub(crate) fn of(raw: &sys::reis_request, text: impl FnOnce() -> String) -> Request {
                let mut fields = Fields::of(raw, text);
                match raw.kind {
                    sys::REIS_KIND_DISCONNECT => Request::Disconnect,
                    sys::REIS_KIND_CONNECTED => Request::Connected,
                    sys::REIS_KIND_PONG => {
                        Request::Pong { ping: PingId(fields.next()), callback_data: fields.next() }
                    }
                    $(sys::$kind => Request::$name {
                        $($part: Part::part(raw.$part),)+
                        $($field: fields.next()),*
                    },)+
                    kind => Request::Unknown { kind: kind.0 },
                }
            }

            /// Whose it is: the seat of the client; `None` where the kind has none.
            #[must_use]
            pub fn seat(&self) -> Option<SeatId> {
                match self {
                    Request::Disconnect
                    | Request::Connected
                    | Request::Pong { .. }
                    | Request::Unknown { .. } => None,
                    $(Request::$name { seat, .. } => Some(*seat),)+
                }
            }

            /// The device that it is of; `None` where the kind has none.
            #[must_use]
            #[allow(unused_variables)] // a row's other parts
            pub fn device(&self) -> Option<DeviceId> {
                match self {
                    Request::Disconnect
                    | Request::Connected
                    | Request::Pong { .. }
                    | Request::Unknown { .. } => None,
                    $(Request::$name { $($part,)+ .. } => device_of!($($part)+),)+
                }
            }

            /// When it was made, in microseconds; `None` where the kind has no time.
            #[must_use]
            #[allow(unused_variables)] // a row's other parts
            pub fn time(&self) -> Option<u64> {
                match self {
                    Request::Disconnect
                    | Request::Connected
                    | Request::Pong { .. }
                    | Request::Unknown { .. } => None,
                    $(Request::$name { $($part,)+ .. } => time_of!($($part)+),)+
                }
            }

            /// The name of its kind, in small letters.
            #[must_use]
            pub fn name(&self) -> &'static str {
                match self {
                    Request::Disconnect => "disconnect",
                    Request::Connected => "connected",
                    Request::Pong { .. } => "pong",
                    $(Request::$name { .. } => $line,)+
                    Request::Unknown { .. } => "unknown",
                }
            }

            fn write_fields(&self, f: &mut fmt::Formatter<'_>) -> fmt::Result {
                match self {
                    Request::Disconnect | Request::Connected => Ok(()),
                    Request::Pong { ping, callback_data } => {
                        write!(f, " ping={ping} callback_data={callback_data}")
                    }
                    $(Request::$name { $($field,)* .. } => {
                        $(show!(f, $field, $field)?;)*
                        Ok(())
                    })+
                    Request::Unknown { kind } => write!(f, " kind={kind}"),
                }
            }
        }
    };
}

/// The enum of inputs: of each its name, its kind and its name in the library, and its fields in the library's order.
macro_rules! input_enum {
    ($($(#[doc = $doc:literal])+ $name:ident = $kind:ident $line:literal { $($field:ident: $of:ty),* })+) => {
        /// An input of a device: what a client that sends asks for, and what one that receives is told.
        ///
        /// [`Link::send`](crate::Link::send) tells it. The fields are those of the [`Request`] of the same name.
        #[derive(Clone, Debug, PartialEq)]
        #[non_exhaustive]
        #[allow(missing_docs)] // the fields: what they mean stands at the requests, or at their variant
        pub enum Input {
            $($(#[doc = $doc])+
            $name { $($field: $of),* },)+
        }

        impl Input {
            /// The name of its kind, in small letters.
            #[must_use]
            pub fn name(&self) -> &'static str {
                match self {
                    $(Input::$name { .. } => $line,)+
                }
            }

            /// The input of a device, as the library reads it.
            pub(crate) fn raw(&self, device: DeviceId) -> sys::reis_request {
                let (kind, of) = match self {
                    $(Input::$name { $($field),* } => (sys::$kind, fields_of([$($field.number()),*])),)+
                };
                sys::reis_request { kind, device: device.0, of, ..sys::reis_request::none() }
            }

            /// The text of a text; empty where it is another input.
            pub(crate) fn text(&self) -> &str {
                match self {
                    Input::TextUtf8 { text } => text,
                    _ => "",
                }
            }

            fn write_fields(&self, f: &mut fmt::Formatter<'_>) -> fmt::Result {
                match self {
                    $(Input::$name { $($field),* } => {
                        $(show!(f, $field, $field)?;)*
                        Ok(())
                    })+
                }
            }
        }

        impl Request {
            /// The input that it is, without its device and its time; `None` where it is none.
            #[must_use]
            pub fn input(&self) -> Option<Input> {
                match self {
                    $(Request::$name { $($field,)* .. } => Some(Input::$name { $($field: $field.to_owned()),* }),)+
                    _ => None,
                }
            }
        }
    };
}

requests! {
    {
        /// It wants devices of these capabilities.
        Bind = REIS_KIND_BIND "bind" (seat) { capabilities: Capabilities }
        /// It wants the device no more.
        DeviceClosed = REIS_KIND_DEVICE_CLOSED "device_closed" (seat device) {}
        /// It asks for one more device with these capabilities.
        RequestDevice = REIS_KIND_REQUEST_DEVICE "request_device" (seat) { capabilities: Capabilities }
        /// The inputs of the device before it belong together.
        Frame = REIS_KIND_FRAME "frame" (seat device time) { serial: u32 }
        /// It has taken note of the device.
        Ready = REIS_KIND_READY "ready" (seat device) {}
        /// It begins to send input of the device; `sequence` is a number of its own choice.
        StartEmulating = REIS_KIND_START_EMULATING "start_emulating" (seat device) { serial: u32, sequence: u32 }
        /// It sends no more.
        StopEmulating = REIS_KIND_STOP_EMULATING "stop_emulating" (seat device) { serial: u32 }
        /// Of a [`Link`](crate::Link): it wants the seat no more, which stays until the program takes it away. It comes behind
        /// all that the client asked before it.
        SeatReleased = REIS_KIND_SEAT_RELEASED "seat_released" (seat) {}
    }
    {
        /// The pointer moved by a distance.
        PointerMotion = REIS_KIND_POINTER_MOTION "pointer_motion" { dx: f32, dy: f32 }
        /// The pointer moved to a position in a region.
        PointerMotionAbsolute = REIS_KIND_POINTER_MOTION_ABSOLUTE "pointer_motion_absolute" { x: f32, y: f32 }
        /// A button went down or up.
        Button = REIS_KIND_BUTTON "button" { button: u32, pressed: bool }
        /// It scrolled by a distance.
        ScrollDelta = REIS_KIND_SCROLL_DELTA "scroll_delta" { dx: f32, dy: f32 }
        /// Scrolling stopped, on the axes that are true.
        ScrollStop = REIS_KIND_SCROLL_STOP "scroll_stop" { x: bool, y: bool }
        /// Scrolling stopped on the axes that are true, and nothing may scroll on by itself.
        ScrollCancel = REIS_KIND_SCROLL_CANCEL "scroll_cancel" { x: bool, y: bool }
        /// It scrolled by steps: a click of a wheel is 120.
        ScrollDiscrete = REIS_KIND_SCROLL_DISCRETE "scroll_discrete" { dx: i32, dy: i32 }
        /// A key went down or up.
        Key = REIS_KIND_KEY "key" { key: u32, pressed: bool }
        /// A touch begins at a position.
        TouchDown = REIS_KIND_TOUCH_DOWN "touch_down" { touch: u32, x: f32, y: f32 }
        /// A touch moved to a position.
        TouchMotion = REIS_KIND_TOUCH_MOTION "touch_motion" { touch: u32, x: f32, y: f32 }
        /// A touch ended.
        TouchUp = REIS_KIND_TOUCH_UP "touch_up" { touch: u32 }
        /// A touch ended and is not to count.
        TouchCancel = REIS_KIND_TOUCH_CANCEL "touch_cancel" { touch: u32 }
        /// A keysym, by its number in XKB, went down or up.
        TextKeysym = REIS_KIND_TEXT_KEYSYM "text_keysym" { keysym: u32, pressed: bool }
        /// A text of 1 to 254 bytes. That of a client may hold what a terminal obeys.
        TextUtf8 = REIS_KIND_TEXT_UTF8 "text_utf8" { text: String }
        /// Fingers moved together by a distance.
        GestureSwipe = REIS_KIND_GESTURE_SWIPE "gesture_swipe" { fingers: u32, dx: f32, dy: f32 }
        /// Fingers moved apart or together: how far apart they are, against where they began.
        GesturePinch = REIS_KIND_GESTURE_PINCH "gesture_pinch" { scale: f32 }
    }
}

/// The name of its kind, whose request it is, when it was made, and what belongs to it. A client's text is shown in
/// hexadecimal digits, since it may hold what a terminal obeys.
impl fmt::Display for Request {
    fn fmt(&self, f: &mut fmt::Formatter<'_>) -> fmt::Result {
        f.write_str(self.name())?;
        if let Some(device) = self.device() {
            write!(f, " device={device}")?;
        } else if let Some(seat) = self.seat() {
            write!(f, " seat={seat}")?;
        }
        if let Some(time) = self.time() {
            write!(f, " time={time}")?;
        }
        self.write_fields(f)
    }
}

/// The name of its kind, and what belongs to it, as a [`Request`] shows it.
impl fmt::Display for Input {
    fn fmt(&self, f: &mut fmt::Formatter<'_>) -> fmt::Result {
        f.write_str(self.name())?;
        self.write_fields(f)
    }
}
