//! Messages of the protocol, written as `docs/PROTOCOL.md` says.

/// The connection, and the first id that its server gives behind it.
pub const CONNECTION: u64 = 0xff00_0000_0000_0000;
pub const FIRST_SEAT: u64 = CONNECTION + 1;

/// What a client is.
pub const RECEIVER: u32 = 1;
pub const SENDER: u32 = 2;

/// The interfaces that the server has, in its order, with its versions.
pub const INTERFACES: [(&str, u32); 13] = [
    ("ei_connection", 1),
    ("ei_callback", 1),
    ("ei_pingpong", 1),
    ("ei_seat", 2),
    ("ei_device", 3),
    ("ei_pointer", 1),
    ("ei_pointer_absolute", 1),
    ("ei_scroll", 1),
    ("ei_button", 1),
    ("ei_keyboard", 1),
    ("ei_touchscreen", 2),
    ("ei_text", 1),
    ("ei_x_gesture", 1),
];

/// The interfaces of the capabilities, by rising bit, with the server's versions.
pub const OF_CAPABILITIES: [(&str, u32); 8] = [
    ("ei_pointer", 1),
    ("ei_pointer_absolute", 1),
    ("ei_keyboard", 1),
    ("ei_touchscreen", 2),
    ("ei_scroll", 1),
    ("ei_button", 1),
    ("ei_text", 1),
    ("ei_x_gesture", 1),
];

/// An argument of a message.
#[derive(Clone, Copy)]
pub enum Arg<'a> {
    /// Four bytes.
    Word(u32),
    /// Four bytes with a sign.
    Signed(i32),
    /// The 32 bits of a float.
    Float(f32),
    /// Eight bytes.
    Long(u64),
    /// A text, one closing byte, and padding.
    Text(&'a str),
    /// No text.
    Null,
}
use Arg::{Float, Long, Null, Signed, Text, Word};

/// A message to an object, of an opcode, with its arguments. All numbers are little-endian.
pub fn message(object: u64, opcode: u32, arguments: &[Arg<'_>]) -> Vec<u8> {
    let mut body = Vec::new();
    for argument in arguments {
        match argument {
            Word(word) => body.extend(word.to_le_bytes()),
            Signed(number) => body.extend(number.to_le_bytes()),
            Float(number) => body.extend(number.to_le_bytes()),
            Long(number) => body.extend(number.to_le_bytes()),
            Text(text) => {
                let length = u32::try_from(text.len()).unwrap() + 1;
                body.extend(length.to_le_bytes());
                body.extend(text.as_bytes());
                body.push(0);
                body.resize(body.len().next_multiple_of(4), 0);
            }
            Null => body.extend([0; 4]),
        }
    }
    let length = u32::try_from(16 + body.len()).unwrap();
    let mut bytes = object.to_le_bytes().to_vec();
    bytes.extend(length.to_le_bytes());
    bytes.extend(opcode.to_le_bytes());
    bytes.extend(body);
    bytes
}

/// What a client says in a handshake: its version, the interfaces, what it is, its name, and that it is done.
pub fn handshake(context_type: u32, name: &str) -> Vec<u8> {
    let mut bytes = message(0, 0, &[Word(1)]);
    for (interface, version) in INTERFACES {
        bytes.extend(message(0, 4, &[Text(interface), Word(version)]));
    }
    bytes.extend(message(0, 2, &[Word(context_type)]));
    bytes.extend(message(0, 3, &[Text(name)]));
    bytes.extend(message(0, 1, &[]));
    bytes
}

/// What a server says in it: its greeting, the interfaces, and the connection with that serial.
pub fn welcome(serial: u32) -> Vec<u8> {
    let mut bytes = message(0, 0, &[Word(1)]);
    for (interface, version) in INTERFACES {
        bytes.extend(message(0, 1, &[Text(interface), Word(version)]));
    }
    bytes.extend(message(0, 2, &[Word(serial), Long(CONNECTION), Word(1)]));
    bytes
}

/// What a server says of a seat of that id and name, with these capabilities.
pub fn seat(id: u64, name: Option<&str>, capabilities: u64) -> Vec<u8> {
    let mut bytes = message(CONNECTION, 1, &[Long(id), Word(2)]);
    if let Some(name) = name {
        bytes.extend(message(id, 1, &[Text(name)]));
    }
    for (place, (interface, _)) in OF_CAPABILITIES.into_iter().enumerate() {
        let bit = 1 << place;
        if capabilities & bit != 0 {
            bytes.extend(message(id, 2, &[Long(bit), Text(interface)]));
        }
    }
    bytes.extend(message(id, 3, &[]));
    bytes
}

/// What a server says of a device up to its interfaces: its id, its name, its type (1 is virtual, 2 is physical), and an
/// interface for each capability, whose ids follow the device's.
pub fn device(
    seat: u64,
    id: u64,
    name: Option<&str>,
    device_type: u32,
    capabilities: u64,
) -> Vec<u8> {
    let mut bytes = message(seat, 4, &[Long(id), Word(3)]);
    if let Some(name) = name {
        bytes.extend(message(id, 1, &[Text(name)]));
    }
    bytes.extend(message(id, 2, &[Word(device_type)]));
    let mut next = id + 1;
    for (place, (interface, version)) in OF_CAPABILITIES.into_iter().enumerate() {
        if capabilities & 1 << place != 0 {
            bytes.extend(message(id, 5, &[Long(next), Text(interface), Word(version)]));
            next += 1;
        }
    }
    bytes
}
