//! A link without a socket: each call and each refusal, with messages that are written from `docs/PROTOCOL.md` alone.

mod common;

use common::wire::{
    device, handshake, message, seat, welcome, Arg, CONNECTION, FIRST_SEAT, RECEIVER, SENDER,
};
use common::{all_worked, bytes_of, Worked};
use paltukwi::{
    Capabilities, Client, ContextType, DeviceId, DeviceSetup, DeviceType, End, ErrorKind,
    FeedError, Input, Keymap, Link, Modifiers, NotUnsent, PingId, Reason, Region, Request, SeatId,
    TellError, MOST_BYTES, MOST_HANDLES,
};
use std::collections::BTreeSet;
use Arg::{Float, Long, Null, Signed, Text, Word};

const SERIAL: u32 = 7;
const SEAT: SeatId = SeatId(FIRST_SEAT);

/// The first device of the seat. With all capabilities its interfaces are the eight ids behind it.
const ID: u64 = FIRST_SEAT + 1;
const DEVICE: DeviceId = DeviceId(ID);
const KEYBOARD: u64 = ID + 3;

type Told = Result<(), TellError>;

/// Takes what waits, so many bytes at a time.
fn take(link: &mut Link, most: usize) -> Vec<u8> {
    let mut got = Vec::new();
    loop {
        let unsent = link.unsent();
        assert!(unsent.handles.is_empty());
        if unsent.bytes.is_empty() {
            return got;
        }
        let count = unsent.bytes.len().min(most);
        got.extend(&unsent.bytes[..count]);
        link.sent(count).unwrap();
    }
}

// ---- links to begin with: all that they were told is written

fn begun() -> Link {
    let mut link = Link::start(SERIAL).unwrap();
    assert_eq!(take(&mut link, 1000), message(0, 0, &[Word(1)]));
    link
}

fn shaken(context_type: u32) -> Link {
    let mut link = Link::start(SERIAL).unwrap();
    link.feed(&handshake(context_type, "probe"), &[], 0).unwrap();
    assert_eq!(take(&mut link, 1000), welcome(SERIAL));
    assert_eq!(link.next_request(), Some(Request::Connected));
    assert_eq!(link.next_request(), None);
    link
}

/// With a seat and a device of all capabilities.
fn with_device(context_type: u32) -> Link {
    let mut link = shaken(context_type);
    let all = Capabilities::ALL;
    assert_eq!(link.add_seat(None, all), Ok(SEAT));
    let setup = DeviceSetup { capabilities: all, ..DeviceSetup::default() };
    assert_eq!(link.add_device(SEAT, &setup), Ok(DEVICE));
    let mut wanted = seat(FIRST_SEAT, None, 255);
    wanted.extend(device(FIRST_SEAT, ID, None, 1, 255));
    wanted.extend(message(ID, 6, &[]));
    assert_eq!(take(&mut link, 1000), wanted);
    link
}

fn receiver() -> Link {
    with_device(RECEIVER)
}

fn sender() -> Link {
    with_device(SENDER)
}

/// With a device whose keyboard the client released.
fn without_keyboard() -> Link {
    let mut link = receiver();
    link.feed(&message(KEYBOARD, 0, &[]), &[], 0).unwrap();
    assert_eq!(take(&mut link, 1000), message(KEYBOARD, 0, &[Word(SERIAL + 1)]));
    link
}

fn disconnected() -> Link {
    let mut link = receiver();
    link.feed(&message(CONNECTION, 1, &[]), &[], 0).unwrap();
    assert_eq!(link.next_request(), Some(Request::Disconnect));
    link
}

// ---- the messages themselves

#[test]
fn messages_are_those_of_the_document() {
    let hexadecimal = |digits| bytes_of(digits).unwrap();
    let wanted =
        "0000000000000000 28000000 04000000 0e000000 65695f636f6e6e656374696f6e 00 0000 01000000";
    assert_eq!(message(0, 4, &[Text("ei_connection"), Word(1)]), hexadecimal(wanted));
    let wanted = "00000000000000ff 1c000000 01000000 01000000000000ff 01000000";
    assert_eq!(message(CONNECTION, 1, &[Long(FIRST_SEAT), Word(1)]), hexadecimal(wanted));
    let wanted = "0000000000000000 1c000000 00000000 feffffff 01000000 00 000000";
    assert_eq!(message(0, 0, &[Signed(-2), Text("")]), hexadecimal(wanted));
    let wanted = "0000000000000000 18000000 00000000 0000803f 00000000";
    assert_eq!(message(0, 0, &[Float(1.0), Null]), hexadecimal(wanted));
}

// ---- the handshake

#[test]
fn a_client_is_known_from_the_handshake_on() {
    for (number, context_type) in [(RECEIVER, ContextType::Receiver), (SENDER, ContextType::Sender)]
    {
        let bytes = handshake(number, "probe");
        for cut in [1, 3, 16, 31, 113, 4096] {
            let mut link = Link::start(SERIAL).unwrap();
            for (place, piece) in bytes.chunks(cut).enumerate() {
                assert_eq!(link.client(), None, "{cut} {place}");
                link.feed(piece, &[], 0).unwrap();
            }
            let client = Client { name: Some("probe".to_string()), context_type };
            assert_eq!(link.client().as_ref(), Some(&client));
            assert_eq!(take(&mut link, cut), welcome(SERIAL));
            link.end_of_input().unwrap();
            assert_eq!(link.client(), Some(client), "behind the end");
        }
    }
}

#[test]
fn a_link_whose_handshake_breaks_off() {
    let mut link = begun();
    link.end_of_input().unwrap();
    let Some(End::Failed(error)) = link.end() else {
        panic!("{:?}", link.end());
    };
    assert_eq!((error.kind(), error.number()), (ErrorKind::UnexpectedEof, 10));
    assert_eq!(error.to_string(), "error_unexpected_eof");
    assert_eq!(link.end_of_input(), Err(FeedError::Over));
    assert_eq!(link.disconnect(Reason::Error, None), Err(TellError::NotConnected));
}

// ---- each call

/// A call, and what the client of a receiver's link is told by it.
struct Call {
    name: &'static str,
    call: fn(&mut Link) -> Told,
    told: Vec<u8>,
}

/// The serial of the first event that bears one.
const NEXT: u32 = SERIAL + 1;

/// `destroyed` of each of these, with the serials from that on.
fn destroyed(ids: impl IntoIterator<Item = u64>) -> Vec<u8> {
    ids.into_iter().zip(NEXT..).flat_map(|(id, next)| message(id, 0, &[Word(next)])).collect()
}

fn calls_on_seats() -> Vec<Call> {
    vec![
        Call {
            name: "ping",
            call: |link| {
                assert_eq!(link.ping()?, PingId(ID + 9));
                Ok(())
            },
            told: message(CONNECTION, 3, &[Long(ID + 9), Word(1)]),
        },
        Call {
            name: "add_seat",
            call: |link| {
                let seat = link.add_seat(Some("left"), Capabilities::from_bits(9))?;
                assert_eq!(seat, SeatId(ID + 9));
                Ok(())
            },
            told: seat(ID + 9, Some("left"), 9),
        },
        Call {
            name: "remove_seat",
            call: |link| link.remove_seat(SEAT),
            told: destroyed((ID + 1..=ID + 8).chain([ID, FIRST_SEAT])),
        },
        Call {
            name: "add_device",
            call: |link| {
                let capabilities = Capabilities::TEXT;
                let setup = DeviceSetup { capabilities, ..DeviceSetup::default() };
                assert_eq!(link.add_device(SEAT, &setup)?, DeviceId(ID + 9));
                Ok(())
            },
            told: [device(FIRST_SEAT, ID + 9, None, 1, 64), message(ID + 9, 6, &[])].concat(),
        },
    ]
}

fn calls_on_devices() -> Vec<Call> {
    vec![
        Call {
            name: "remove_device",
            call: |link| link.remove_device(DEVICE),
            told: destroyed((ID + 1..=ID + 8).chain([ID])),
        },
        Call {
            name: "resume",
            call: |link| link.resume(DEVICE),
            told: message(ID, 7, &[Word(NEXT)]),
        },
        Call {
            name: "pause",
            call: |link| link.pause(DEVICE),
            told: message(ID, 8, &[Word(NEXT)]),
        },
        Call {
            name: "modifiers",
            call: |link| {
                let held = Modifiers { depressed: 1, locked: 2, latched: 4, group: 3 };
                link.modifiers(DEVICE, held)
            },
            told: message(KEYBOARD, 3, &[Word(NEXT), Word(1), Word(2), Word(4), Word(3)]),
        },
    ]
}

/// Those that only a receiver is told.
fn calls_to_receivers() -> Vec<Call> {
    vec![
        Call {
            name: "start_emulating",
            call: |link| link.start_emulating(DEVICE, 41),
            told: message(ID, 9, &[Word(NEXT), Word(41)]),
        },
        Call {
            name: "stop_emulating",
            call: |link| link.stop_emulating(DEVICE),
            told: message(ID, 10, &[Word(NEXT)]),
        },
        Call {
            name: "frame",
            call: |link| link.frame(DEVICE, 123_456_789_012_345),
            told: message(ID, 11, &[Word(NEXT), Long(123_456_789_012_345)]),
        },
        Call {
            name: "send",
            call: |link| link.send(DEVICE, &Input::Key { key: 30, pressed: true }),
            told: message(KEYBOARD, 2, &[Word(30), Word(1)]),
        },
    ]
}

fn all_calls() -> Vec<Call> {
    let calls = [calls_on_seats(), calls_on_devices(), calls_to_receivers()];
    calls.into_iter().flatten().collect()
}

#[test]
fn each_call_tells_the_client() {
    for Call { name, call, told } in all_calls() {
        for most in [1, 5, 4096] {
            let mut link = receiver();
            assert_eq!(call(&mut link), Ok(()), "{name}");
            assert_eq!(take(&mut link, most), told, "{name}");
            assert_eq!(link.end(), None, "{name}");
        }
    }
}

/// What goes to senders too; there a serial counts on from call to call.
#[test]
fn serials_count_on() {
    let mut link = sender();
    link.resume(DEVICE).unwrap();
    link.modifiers(DEVICE, Modifiers { group: 1, ..Modifiers::default() }).unwrap();
    link.pause(DEVICE).unwrap();
    let mut wanted = message(ID, 7, &[Word(8)]);
    wanted.extend(message(KEYBOARD, 3, &[Word(9), Word(0), Word(0), Word(0), Word(1)]));
    wanted.extend(message(ID, 8, &[Word(10)]));
    assert_eq!(take(&mut link, 4096), wanted);
}

// ---- devices

/// A device of the seat that has these items behind its interfaces.
fn is_told(setup: &DeviceSetup<'_>, device_type: u32, items: &[Vec<u8>]) {
    let mut link = shaken(SENDER);
    link.add_seat(Some("default"), Capabilities::ALL).unwrap();
    take(&mut link, 4096);
    assert_eq!(link.add_device(SEAT, setup), Ok(DEVICE));
    let bits = setup.capabilities.bits();
    let mut wanted = device(FIRST_SEAT, ID, setup.name, device_type, bits);
    wanted.extend(items.concat());
    wanted.extend(message(ID, 6, &[]));
    assert_eq!(take(&mut link, 4096), wanted, "{setup:?}");
}

fn region(x: u32, y: u32, width: u32, height: u32, scale: f32) -> Region<'static> {
    Region { x, y, width, height, scale, mapping_id: None }
}

#[test]
fn devices_are_told_as_they_are_described() {
    let none = DeviceSetup::default();
    is_told(&none, 1, &[]);
    is_told(&DeviceSetup { name: Some("desk"), capabilities: Capabilities::ALL, ..none }, 1, &[]);
    is_told(&DeviceSetup { name: Some("d\u{e9}"), ..none }, 1, &[]);
    let (device_type, size) = (DeviceType::Physical, Some((300, 200)));
    let dimensions = message(ID, 3, &[Word(300), Word(200)]);
    is_told(&DeviceSetup { device_type, size, ..none }, 2, &[dimensions]);
    is_told(&DeviceSetup { size: Some((0, 1)), ..none }, 1, &[message(ID, 3, &[Word(0), Word(1)])]);
    is_told(&DeviceSetup { size: Some((0, 0)), ..none }, 1, &[]);

    let left = Region { mapping_id: Some("left"), ..region(1, 2, 3, 4, 1.5) };
    let middle = Region { mapping_id: Some(""), ..region(5, 6, 7, 8, 1.0) };
    let right = Region { mapping_id: Some("r\u{e9}chts"), ..region(9, 10, 11, 12, 0.25) };
    let regions = [left, middle, right, region(13, 14, 15, 16, -2.0)];
    let telling = |x, scale| {
        let numbers = [x, x + 1, x + 2, x + 3].map(Word);
        message(ID, 4, &[&numbers[..], &[Float(scale)]].concat())
    };
    let items = [
        message(ID, 12, &[Text("left")]),
        telling(1, 1.5),
        telling(5, 1.0),
        message(ID, 12, &[Text("r\u{e9}chts")]),
        telling(9, 0.25),
        telling(13, -2.0),
    ];
    is_told(&DeviceSetup { regions: &regions, ..none }, 1, &items);
}

/// An empty name is none, of a seat and of a device.
#[test]
fn an_empty_name_is_none() {
    let mut link = shaken(SENDER);
    link.add_seat(Some(""), Capabilities::KEYBOARD).unwrap();
    link.add_device(SEAT, &DeviceSetup { name: Some(""), ..DeviceSetup::default() }).unwrap();
    let mut wanted = seat(FIRST_SEAT, None, 4);
    wanted.extend(device(FIRST_SEAT, ID, None, 1, 0));
    wanted.extend(message(ID, 6, &[]));
    assert_eq!(take(&mut link, 4096), wanted);
}

#[test]
fn a_device_has_what_the_client_left_it() {
    let mut link = without_keyboard();
    for bit in [1, 2, 8, 16, 32, 64, 128] {
        assert_eq!(link.device_has(DEVICE, Capabilities::from_bits(bit)), Ok(true), "{bit}");
    }
    assert_eq!(link.device_has(DEVICE, Capabilities::KEYBOARD), Ok(false));
    for bits in [0, 3, 256, u64::MAX] {
        let answer = link.device_has(DEVICE, Capabilities::from_bits(bits));
        assert_eq!(answer, Err(TellError::Capabilities), "{bits}");
    }
    let other = DeviceId(ID + 1);
    assert_eq!(link.device_has(other, Capabilities::TEXT), Err(TellError::Gone));
    assert!(take(&mut link, 4096).is_empty());
}

// ---- inputs

/// An input; the place of its interface behind the device, its opcode from a client and to one, and its arguments.
type Played = (Input, u64, u32, u32, &'static [Arg<'static>]);

fn inputs() -> Vec<Played> {
    let text = "h\u{e9}".to_string();
    vec![
        (Input::PointerMotion { dx: 1.5, dy: -2.0 }, 1, 1, 1, &[Float(1.5), Float(-2.0)]),
        (Input::PointerMotionAbsolute { x: 3.0, y: 4.0 }, 2, 1, 1, &[Float(3.0), Float(4.0)]),
        (Input::Key { key: 30, pressed: true }, 3, 1, 2, &[Word(30), Word(1)]),
        (
            Input::TouchDown { touch: 5, x: 6.0, y: 7.0 },
            4,
            1,
            1,
            &[Word(5), Float(6.0), Float(7.0)],
        ),
        (
            Input::TouchMotion { touch: 5, x: 8.0, y: 9.0 },
            4,
            2,
            2,
            &[Word(5), Float(8.0), Float(9.0)],
        ),
        (Input::TouchUp { touch: 5 }, 4, 3, 3, &[Word(5)]),
        (
            Input::TouchDown { touch: 6, x: 0.5, y: 0.25 },
            4,
            1,
            1,
            &[Word(6), Float(0.5), Float(0.25)],
        ),
        (Input::TouchCancel { touch: 6 }, 4, 4, 4, &[Word(6)]),
        (Input::ScrollDelta { dx: 10.0, dy: 11.0 }, 5, 1, 1, &[Float(10.0), Float(11.0)]),
        (Input::ScrollDiscrete { dx: -120, dy: 240 }, 5, 2, 2, &[Signed(-120), Signed(240)]),
        (Input::ScrollStop { x: true, y: false }, 5, 3, 3, &[Word(1), Word(0), Word(0)]),
        (Input::ScrollCancel { x: false, y: true }, 5, 3, 3, &[Word(0), Word(1), Word(1)]),
        (Input::Button { button: 272, pressed: false }, 6, 1, 1, &[Word(272), Word(0)]),
        (Input::TextKeysym { keysym: 97, pressed: true }, 7, 1, 1, &[Word(97), Word(1)]),
        (Input::TextUtf8 { text }, 7, 2, 2, &[Text("h\u{e9}")]),
        (
            Input::GestureSwipe { fingers: 3, dx: 12.0, dy: 13.0 },
            8,
            1,
            1,
            &[Word(3), Float(12.0), Float(13.0)],
        ),
        (Input::GesturePinch { scale: 0.5 }, 8, 2, 2, &[Float(0.5)]),
    ]
}

#[test]
fn each_input_is_told_to_a_receiver() {
    let mut link = receiver();
    for (input, place, _, opcode, arguments) in inputs() {
        assert_eq!(link.send(DEVICE, &input), Ok(()), "{input}");
        assert_eq!(take(&mut link, 7), message(ID + place, opcode, arguments), "{input}");
    }
}

#[test]
fn each_kind_of_input_is_among_them() {
    let names: BTreeSet<&str> = inputs().iter().map(|(input, ..)| input.name()).collect();
    assert_eq!(names.len(), 16, "{names:?}");
    let lines: Vec<String> = inputs().iter().map(|(input, ..)| input.to_string()).collect();
    assert_eq!(lines[0], "pointer_motion dx=1.5 dy=-2");
    assert_eq!(lines[2], "key key=30 state=press");
    assert_eq!(lines[14], "text_utf8 text=68c3a9");
}

// ---- requests

/// What a client asks of its seat and its device, with the inputs as one frame, and then disconnects.
fn asked() -> Vec<u8> {
    let mut bytes = message(FIRST_SEAT, 1, &[Long(5)]);
    bytes.extend(message(FIRST_SEAT, 2, &[Long(6)]));
    bytes.extend(message(ID, 4, &[]));
    bytes.extend(message(ID, 1, &[Word(7), Word(41)]));
    for (_, place, opcode, _, arguments) in inputs() {
        bytes.extend(message(ID + place, opcode, arguments));
    }
    bytes.extend(message(ID, 3, &[Word(8), Long(2_000_000_000_001)]));
    bytes.extend(message(ID, 2, &[Word(9)]));
    bytes.extend(message(ID, 0, &[]));
    bytes.extend(message(CONNECTION, 1, &[]));
    bytes
}

#[test]
fn each_request_is_handed_out() {
    let (seat, device, time) = (SEAT, DEVICE, 2_000_000_000_001);
    for cut in [1, 7, 16, 61, 4096] {
        let mut link = sender();
        for piece in asked().chunks(cut) {
            link.feed(piece, &[], 3).unwrap();
        }
        let mut next = || link.next_request().unwrap();
        assert_eq!(next(), Request::Bind { seat, capabilities: Capabilities::from_bits(5) });
        assert_eq!(
            next(),
            Request::RequestDevice { seat, capabilities: Capabilities::from_bits(6) }
        );
        assert_eq!(next(), Request::Ready { seat, device });
        assert_eq!(next(), Request::StartEmulating { seat, device, serial: 7, sequence: 41 });
        for (input, ..) in inputs() {
            let request = next();
            assert_eq!((request.name(), request.input().as_ref()), (input.name(), Some(&input)));
            assert_eq!((request.seat(), request.device()), (Some(seat), Some(device)));
            assert_eq!(request.time(), Some(time));
        }
        let frame = next();
        assert_eq!(
            (frame.input(), &frame),
            (None, &Request::Frame { seat, device, time, serial: 8 })
        );
        assert_eq!(next(), Request::StopEmulating { seat, device, serial: 9 });
        assert_eq!(next(), Request::DeviceClosed { seat, device });
        assert_eq!(next(), Request::Disconnect);
        assert_eq!(link.next_request(), None);
        assert_eq!(link.end(), Some(End::Disconnected));
        assert!(take(&mut link, 4096).is_empty(), "nothing is done about them");
    }
}

/// A request that no frame ends gets one, of the piece's time.
#[test]
fn a_made_frame_has_the_time_of_its_piece() {
    let (seat, device, time) = (SEAT, DEVICE, u64::MAX);
    let mut link = sender();
    link.feed(&message(KEYBOARD, 1, &[Word(30), Word(0)]), &[], 5).unwrap();
    assert_eq!(link.next_request(), None);
    link.feed(&message(ID, 4, &[]), &[], time).unwrap();
    let key = Request::Key { seat, device, time, key: 30, pressed: false };
    assert_eq!(link.next_request(), Some(key));
    assert_eq!(link.next_request(), Some(Request::Frame { seat, device, time, serial: SERIAL }));
    assert_eq!(link.next_request(), Some(Request::Ready { seat, device }));
}

/// Two pings are answered, in the other order, and the seat is released: each is told once, behind the requests.
#[test]
fn pings_are_answered_and_a_seat_is_released() {
    let (first, second) = (PingId(ID + 9), PingId(ID + 10));
    for cut in [1, 7, 4096] {
        let mut link = sender();
        assert_eq!((link.ping(), link.ping()), (Ok(first), Ok(second)));
        assert_eq!(take(&mut link, 4096).len(), 2 * 28);
        let mut bytes = message(second.0, 0, &[Long(5)]);
        bytes.extend(message(FIRST_SEAT, 0, &[]));
        bytes.extend(message(first.0, 0, &[Long(u64::MAX)]));
        bytes.extend(message(ID, 4, &[]));
        for piece in bytes.chunks(cut) {
            link.feed(piece, &[], 3).unwrap();
        }
        assert_eq!(take(&mut link, 4096), message(FIRST_SEAT, 0, &[Word(NEXT)]));
        let mut next = || link.next_request();
        assert_eq!(next(), Some(Request::Ready { seat: SEAT, device: DEVICE }));
        let pong = Request::Pong { ping: second, callback_data: 5 };
        assert_eq!(pong.to_string(), format!("pong ping={second} callback_data=5"));
        assert_eq!(
            (pong.seat(), pong.device(), pong.time(), pong.input()),
            (None, None, None, None)
        );
        assert_eq!(next(), Some(pong));
        let released = next().unwrap();
        assert_eq!(released, Request::SeatReleased { seat: SEAT });
        assert_eq!(released.to_string(), format!("seat_released seat={SEAT}"));
        assert_eq!(next(), Some(Request::Pong { ping: first, callback_data: u64::MAX }));
        assert_eq!(next(), None);
        for (id, opcode, arguments) in [(first.0, 0, vec![Long(0)]), (FIRST_SEAT, 0, vec![])] {
            link.feed(&message(id, opcode, &arguments), &[], 0).unwrap();
            assert_eq!(take(&mut link, 4096), message(CONNECTION, 2, &[Word(NEXT), Long(id)]));
            assert_eq!(link.next_request(), None);
        }
        assert_eq!(link.end(), None);
    }
}

// ---- refusals

/// The call is refused so, and nothing changes.
fn is_refused(mut link: Link, name: &str, call: impl Fn(&mut Link) -> Told, answer: TellError) {
    let end = link.end();
    for _ in 0..2 {
        assert_eq!(call(&mut link), Err(answer), "{name}");
        assert!(take(&mut link, 4096).is_empty(), "{name}");
        assert_eq!(link.end(), end, "{name}");
        assert_eq!(link.next_request(), None, "{name}");
    }
}

#[test]
fn each_call_is_refused_before_the_handshake_and_behind_the_end() {
    for Call { name, call, .. } in all_calls() {
        is_refused(begun(), name, call, TellError::NotConnected);
        is_refused(disconnected(), name, call, TellError::Over);
    }
    is_refused(
        begun(),
        "disconnect",
        |link| link.disconnect(Reason::Error, None),
        TellError::NotConnected,
    );
    let has = |link: &mut Link| link.device_has(DEVICE, Capabilities::TEXT).map(drop);
    is_refused(begun(), "device_has", has, TellError::Gone);
}

#[test]
fn a_sender_is_told_of_no_input() {
    for Call { name, call, .. } in calls_to_receivers() {
        is_refused(sender(), name, call, TellError::WrongRole);
    }
}

/// Ids that no seat and no device has: other objects of this connection among them, and those of another one.
#[test]
fn what_is_gone_is_answered() {
    let removed = || {
        let mut link = receiver();
        link.remove_seat(SEAT).unwrap();
        take(&mut link, 4096);
        link
    };
    let on_ids = |call: &Call| !["ping", "add_seat"].contains(&call.name);
    for Call { name, call, .. } in all_calls().into_iter().filter(on_ids) {
        is_refused(removed(), name, call, TellError::Gone);
        is_refused(shaken(RECEIVER), name, call, TellError::Gone);
    }
    for id in [0, CONNECTION, FIRST_SEAT, ID + 1, ID + 9, u64::MAX] {
        is_refused(receiver(), "device", |link| link.resume(DeviceId(id)), TellError::Gone);
        if id != FIRST_SEAT {
            is_refused(receiver(), "seat", |link| link.remove_seat(SeatId(id)), TellError::Gone);
        }
    }
}

/// A link with a seat that gives a keyboard, and a device of it without any capability.
fn bare() -> Link {
    let mut link = shaken(RECEIVER);
    assert_eq!(link.add_seat(None, Capabilities::KEYBOARD), Ok(SEAT));
    assert_eq!(link.add_device(SEAT, &DeviceSetup::default()), Ok(DEVICE));
    take(&mut link, 4096);
    link
}

#[test]
fn capabilities_that_are_not_there() {
    let refused = TellError::Capabilities;
    for bits in [256, 1 << 63, u64::MAX] {
        let capabilities = Capabilities::from_bits(bits);
        is_refused(bare(), "seat", |link| link.add_seat(None, capabilities).map(drop), refused);
    }
    for bits in [1, 5, 8, 256] {
        let setup =
            DeviceSetup { capabilities: Capabilities::from_bits(bits), ..DeviceSetup::default() };
        is_refused(bare(), "device", |link| link.add_device(SEAT, &setup).map(drop), refused);
    }
    for (input, ..) in inputs() {
        is_refused(bare(), input.name(), |link| link.send(DEVICE, &input), refused);
    }
    let key = Input::Key { key: 1, pressed: true };
    is_refused(without_keyboard(), "key", |link| link.send(DEVICE, &key), refused);
    for link in [bare(), without_keyboard()] {
        let modifiers = |link: &mut Link| link.modifiers(DEVICE, Modifiers::default());
        is_refused(link, "modifiers", modifiers, refused);
    }
}

#[test]
fn a_keymap_wants_a_keyboard() {
    let file = std::fs::File::open("/proc/self/status").unwrap();
    let setup = DeviceSetup { keymap: Some(Keymap::xkb(&file, 5)), ..DeviceSetup::default() };
    let call = |link: &mut Link| link.add_device(SEAT, &setup).map(drop);
    is_refused(bare(), "keymap", call, TellError::NoKeyboard);
}

/// A message has at most 1048576 bytes: 16 are its head, four the length of a text, and one closes the text.
#[test]
fn texts_that_are_too_long() {
    let fits = "x".repeat(1_048_576 - 16 - 4 - 4);
    let long = format!("{fits}xxxx");
    let refused = TellError::MessageTooLong;
    let name = Some(long.as_str());
    is_refused(bare(), "seat", |link| link.add_seat(name, Capabilities::NONE).map(drop), refused);
    let setup = DeviceSetup { name, ..DeviceSetup::default() };
    is_refused(bare(), "device", |link| link.add_device(SEAT, &setup).map(drop), refused);
    let regions = [Region { mapping_id: name, ..region(0, 0, 1, 1, 1.0) }];
    let setup = DeviceSetup { regions: &regions, ..DeviceSetup::default() };
    is_refused(bare(), "region", |link| link.add_device(SEAT, &setup).map(drop), refused);
    let text = Input::TextUtf8 { text: long.clone() };
    is_refused(receiver(), "text", |link| link.send(DEVICE, &text), refused);
    is_refused(bare(), "disconnect", |link| link.disconnect(Reason::Error, name), refused);
    let mut link = bare();
    assert_eq!(link.add_seat(Some(&fits), Capabilities::NONE), Ok(SeatId(ID + 1)));
    assert_eq!(take(&mut link, 1 << 21), seat(ID + 1, Some(&fits), 0));
}

#[test]
fn pieces_that_are_refused_change_nothing() {
    let mut link = begun();
    let (long, many) = (vec![0; MOST_BYTES + 1], [0; MOST_HANDLES + 1]);
    assert_eq!(link.feed(&[], &many, 0), Err(FeedError::Empty));
    assert_eq!(link.feed(&long, &many, 0), Err(FeedError::TooLong));
    assert_eq!(link.feed(&long[1..], &many, 0), Err(FeedError::TooManyHandles));
    assert_eq!((link.end(), link.client(), link.next_request()), (None, None, None));
    link.feed(&handshake(SENDER, "probe"), &many[1..], 0).unwrap();
    link.feed(&message(CONNECTION, 1, &[]), &[], 0).unwrap();
    assert_eq!(link.feed(&[], &many, 0), Err(FeedError::Over));
    assert_eq!(link.end_of_input(), Err(FeedError::Over));
    assert_eq!(link.end(), Some(End::Disconnected));
}

#[test]
fn refusals_have_texts() {
    let texts = [
        (TellError::Over, "the link is over"),
        (TellError::NotConnected, "the handshake isn't done"),
        (TellError::Gone, "there is no such seat or device, or it is there no more"),
        (TellError::WrongRole, "the client isn't a receiver"),
        (TellError::Capabilities, "the seat or the device hasn't this capability, or it is none"),
        (TellError::NoKeyboard, "a keymap for a device without a keyboard"),
        (TellError::TooManyHandles, "more than 64 handles would wait to be written"),
        (TellError::MessageTooLong, "a message would have more than 1048576 bytes"),
        (TellError::IdsExhausted, "too few ids are left"),
        (TellError::NoMemory, "memory ran out"),
        (TellError::Invalid, "a number or a text stands for nothing"),
        (TellError::Size, "the library doesn't know a description of this size"),
        (TellError::Unknown { number: 21 }, "the library answers 21"),
    ];
    for (error, text) in texts {
        assert_eq!(error.to_string(), text);
    }
    let error = TellError::Descriptor { code: 24 };
    let text = "the keymap can't be passed: Too many open files (os error 24)";
    assert_eq!(error.to_string(), text);
    assert_eq!(FeedError::Over.to_string(), "the session or the link is over");
}

// ---- what is lent

#[test]
fn what_is_lent_waits_until_it_is_counted() {
    let mut link = Link::start(SERIAL).unwrap();
    let greeting = message(0, 0, &[Word(1)]);
    assert_eq!(link.unsent().bytes, greeting);
    assert_eq!(link.sent(21), Err(NotUnsent));
    assert_eq!(link.sent(usize::MAX), Err(NotUnsent));
    assert_eq!(link.unsent().bytes, greeting);
    link.sent(7).unwrap();
    assert_eq!(link.unsent().bytes, &greeting[7..]);
    link.feed(&handshake(SENDER, ""), &[], 0).unwrap();
    assert_eq!(link.client().unwrap().name, None);
    let wanted = welcome(SERIAL);
    assert_eq!(link.unsent().bytes, &wanted[7..]);
    link.sent(wanted.len() - 7).unwrap();
    assert_eq!(link.unsent().bytes, b"");
    link.sent(0).unwrap();
    assert_eq!(link.sent(1), Err(NotUnsent));
}

// ---- the end

#[test]
fn a_client_is_told_why() {
    let reasons = [
        (Reason::Disconnected, 0),
        (Reason::Error, 1),
        (Reason::Mode, 2),
        (Reason::Protocol, 3),
        (Reason::Value, 4),
        (Reason::Transport, 5),
        (Reason::Other(6), 6),
        (Reason::Other(u32::MAX), u32::MAX),
    ];
    for (reason, number) in reasons {
        for (text, told) in [(Some("bye"), Text("bye")), (None, Null), (Some(""), Null)] {
            let mut link = bare();
            assert_eq!(link.disconnect(reason, text), Ok(()));
            let mut wanted = destroyed([ID, FIRST_SEAT]);
            wanted.extend(message(CONNECTION, 0, &[Word(SERIAL + 2), Word(number), told]));
            assert_eq!(take(&mut link, 5), wanted, "{reason:?}");
            assert_eq!(link.end(), Some(End::Told));
            assert_eq!(link.disconnect(reason, text), Err(TellError::Over));
            assert_eq!(link.resume(DEVICE), Err(TellError::Over));
            assert_eq!(link.feed(&[0], &[], 0), Err(FeedError::Over));
        }
    }
    assert_eq!(End::Told.to_string(), "the client was told so");
}

/// A client that breaks the protocol is told so all the same, and the end stays what came first.
#[test]
fn a_client_that_is_over_is_told_too() {
    let mut link = bare();
    link.feed(&message(FIRST_SEAT, 1, &[Long(1)]), &[], 0).unwrap();
    let Some(End::Failed(error)) = link.end() else {
        panic!("{:?}", link.end());
    };
    assert_eq!((error.kind(), error.number()), (ErrorKind::RequestInvalidCapabilities, 30));
    assert_eq!(error.to_string(), "request_invalid_capabilities");
    assert_eq!(link.resume(DEVICE), Err(TellError::Over));
    assert_eq!(link.disconnect(Reason::Value, Some(&error.to_string())), Ok(()));
    let mut wanted = destroyed([ID, FIRST_SEAT]);
    let text = Text("request_invalid_capabilities");
    wanted.extend(message(CONNECTION, 0, &[Word(SERIAL + 2), Word(4), text]));
    assert_eq!(take(&mut link, 4096), wanted);
    assert_eq!(link.end(), Some(End::Failed(error)));
    assert_eq!(link.client().unwrap().context_type, ContextType::Receiver);
}

// ---- the worked sessions, by a policy that is the library's own

/// One seat without a name, and a device for what the client binds, as `docs/PROTOCOL.md` says what a session does.
struct Policy<'a> {
    worked: &'a Worked,
    link: Link,
    got: Vec<u8>,
    requests: Vec<String>,
}

impl Policy<'_> {
    fn add_device(&mut self, seat: SeatId, capabilities: Capabilities) -> Told {
        if !capabilities.is_empty() {
            let setup = DeviceSetup { capabilities, ..DeviceSetup::default() };
            let device = self.link.add_device(seat, &setup)?;
            self.link.resume(device)?;
        }
        Ok(())
    }

    fn act(&mut self) {
        while let Some(request) = self.link.next_request() {
            match request {
                Request::Connected => {
                    let offered = Capabilities::from_bits(self.worked.capabilities);
                    self.link.add_seat(None, offered).unwrap();
                    continue;
                }
                // a session tells nothing of it
                Request::SeatReleased { .. } => continue,
                _ => self.requests.push(request.to_string()),
            }
            let acted = match request {
                Request::Bind { seat, capabilities } => self.add_device(seat, capabilities),
                Request::RequestDevice { seat, capabilities } => {
                    self.add_device(seat, capabilities)
                }
                Request::DeviceClosed { device, .. } => self.link.remove_device(device),
                _ => Ok(()),
            };
            acted.unwrap();
        }
        self.got.extend(take(&mut self.link, 11));
    }
}

/// Byte by byte, so that each request is acted on before the next.
#[test]
fn the_policy_of_a_session_makes_its_worked_sessions() {
    for worked in all_worked() {
        let link = Link::start(worked.serial).unwrap();
        let mut it = Policy { worked: &worked, link, got: Vec::new(), requests: Vec::new() };
        for byte in &worked.client {
            assert_eq!(it.link.end(), None, "{}", worked.name);
            it.link.feed(&[*byte], &[], worked.time).unwrap();
            it.act();
        }
        if worked.ends_with_input() {
            it.link.end_of_input().unwrap();
        }
        assert_eq!(it.requests, worked.requests, "{}", worked.name);
        assert!(it.got == worked.server, "{}: other replies", worked.name);
        let number = match it.link.end() {
            Some(End::Failed(error)) => error.number(),
            Some(End::Disconnected) => 1,
            end => u32::from(end == Some(End::EndOfInput)) * 2,
        };
        assert_eq!(number, worked.end, "{}", worked.name);
    }
}

/// Each byte of each worked session is another one: the link goes on or ends, and can be asked about all.
#[test]
fn links_that_are_not_as_they_should_be() {
    for worked in all_worked() {
        for at in 0..worked.client.len() {
            let mut bytes = worked.client.clone();
            bytes[at] ^= 0x55;
            let mut link = Link::start(worked.serial).unwrap();
            let (first, second) = bytes.split_at(at);
            for piece in [first, second] {
                let is_over = link.end().is_some();
                match link.feed(piece, &[], worked.time) {
                    Ok(()) => assert!(!is_over && !piece.is_empty()),
                    Err(error) => assert_eq!(error == FeedError::Over, is_over),
                }
                let added = link.add_seat(None, Capabilities::ALL);
                assert_eq!(added.is_ok(), link.client().is_some() && link.end().is_none());
            }
            assert!(take(&mut link, 10_000).len() >= 20);
            while link.next_request().is_some() {}
        }
    }
}

#[test]
fn links_on_several_threads_at_once() {
    let plays = || (0..4).map(|_| std::thread::spawn(each_call_tells_the_client));
    for thread in plays().collect::<Vec<_>>() {
        thread.join().unwrap();
    }
}
