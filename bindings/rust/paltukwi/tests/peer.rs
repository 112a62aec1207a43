//! A link over a socket pair, with messages that are written from `docs/PROTOCOL.md` alone.

mod common;

use common::read_now;
use common::wire::{
    device, handshake, message, seat, welcome, Arg, CONNECTION, FIRST_SEAT, RECEIVER, SENDER,
};
use paltukwi::{
    now, Capabilities, ContextType, DeviceId, DeviceSetup, End, Input, Interest, Modifiers, Peer,
    Reason, Request, SeatId, TellError,
};
use std::io::{self, ErrorKind, Read, Write};
use std::net::Shutdown;
use std::os::unix::net::UnixStream;
use Arg::{Float, Long, Null, Text, Word};

const SERIAL: u32 = 7;
const SEAT: SeatId = SeatId(FIRST_SEAT);
const ID: u64 = FIRST_SEAT + 1;
const DEVICE: DeviceId = DeviceId(ID);

/// A client's socket, and the server's end of it.
fn pair() -> (UnixStream, Peer) {
    let (client, server) = UnixStream::pair().unwrap();
    client.set_nonblocking(true).unwrap();
    (client, Peer::open(server, SERIAL).unwrap())
}

/// The same behind the handshake, with a seat and a device of all capabilities, of which the client has heard.
fn with_device(context_type: u32) -> (UnixStream, Peer) {
    let (mut client, mut peer) = pair();
    client.write_all(&handshake(context_type, "probe")).unwrap();
    peer.turn(0).unwrap();
    assert_eq!(peer.next_request(), Some(Request::Connected));
    let capabilities = Capabilities::ALL;
    assert_eq!(peer.add_seat(None, capabilities), Ok(SEAT));
    let setup = DeviceSetup { capabilities, ..DeviceSetup::default() };
    assert_eq!(peer.add_device(SEAT, &setup), Ok(DEVICE));
    peer.turn(0).unwrap();
    let mut wanted = welcome(SERIAL);
    wanted.extend(seat(FIRST_SEAT, None, 255));
    wanted.extend(device(FIRST_SEAT, ID, None, 1, 255));
    wanted.extend(message(ID, 6, &[]));
    assert!(read_now(&mut client, 4096) == wanted);
    (client, peer)
}

/// `destroyed` of each of these, with the serials from that on.
fn destroyed(ids: impl IntoIterator<Item = u64>, from: u32) -> Vec<u8> {
    ids.into_iter().zip(from..).flat_map(|(id, next)| message(id, 0, &[Word(next)])).collect()
}

#[test]
fn each_call_is_that_of_a_link() {
    let (mut client, mut peer) = with_device(RECEIVER);
    assert_eq!(peer.interest(), Interest::Read);
    peer.resume(DEVICE).unwrap();
    let held = Modifiers { depressed: 1, locked: 2, latched: 4, group: 3 };
    peer.modifiers(DEVICE, held).unwrap();
    peer.start_emulating(DEVICE, 41).unwrap();
    peer.send(DEVICE, &Input::PointerMotion { dx: 1.5, dy: -2.0 }).unwrap();
    peer.frame(DEVICE, 123_456_789_012_345).unwrap();
    peer.stop_emulating(DEVICE).unwrap();
    peer.pause(DEVICE).unwrap();
    assert_eq!(peer.device_has(DEVICE, Capabilities::TOUCH), Ok(true));
    peer.remove_device(DEVICE).unwrap();
    peer.remove_seat(SEAT).unwrap();
    assert_eq!(peer.device_has(DEVICE, Capabilities::TOUCH), Err(TellError::Gone));
    assert_eq!((peer.interest(), peer.end()), (Interest::Write, None));
    peer.disconnect(Reason::Transport, Some("bye")).unwrap();
    assert!(!peer.is_done());
    peer.turn(0).unwrap();
    assert!(peer.is_done());
    assert_eq!(peer.end(), Some(End::Told));

    let mut wanted = message(ID, 7, &[Word(8)]);
    wanted.extend(message(ID + 3, 3, &[Word(9), Word(1), Word(2), Word(4), Word(3)]));
    wanted.extend(message(ID, 9, &[Word(10), Word(41)]));
    wanted.extend(message(ID + 1, 1, &[Float(1.5), Float(-2.0)]));
    wanted.extend(message(ID, 11, &[Word(11), Long(123_456_789_012_345)]));
    wanted.extend(message(ID, 10, &[Word(12)]));
    wanted.extend(message(ID, 8, &[Word(13)]));
    wanted.extend(destroyed((ID + 1..=ID + 8).chain([ID, FIRST_SEAT]), 14));
    wanted.extend(message(CONNECTION, 0, &[Word(23), Word(5), Text("bye")]));
    assert!(read_now(&mut client, 4096) == wanted);
    drop(peer);
    assert_eq!(client.read(&mut [0]).unwrap(), 0, "more behind the end");
}

/// What a client sends in cuts is handed out, and what it is told is written however little it takes at a time.
fn plays(cut: usize, most: usize) {
    let (mut client, mut peer) = with_device(SENDER);
    let time = 9000;
    let mut sent = message(FIRST_SEAT, 1, &[Long(4)]);
    sent.extend(message(ID + 3, 1, &[Word(30), Word(1)]));
    sent.extend(message(ID, 3, &[Word(7), Long(time)]));
    sent.extend(message(CONNECTION, 0, &[Long(1), Word(1)])); // sync
    sent.extend(message(CONNECTION, 1, &[]));
    let (mut requests, mut got, mut pieces) = (Vec::new(), Vec::new(), sent.chunks(cut));
    for _ in 0..1000 {
        if let Some(piece) = pieces.next() {
            client.write_all(piece).unwrap();
        }
        peer.turn(5).unwrap();
        while let Some(request) = peer.next_request() {
            if matches!(request, Request::Bind { .. }) {
                peer.resume(DEVICE).unwrap_or_else(|error| assert_eq!(error, TellError::Over));
            }
            requests.push(request);
        }
        got.extend(read_now(&mut client, most));
    }
    assert!(peer.is_done(), "{:?}", peer.end());
    let (seat, device) = (SEAT, DEVICE);
    let wanted = [
        Request::Bind { seat, capabilities: Capabilities::KEYBOARD },
        Request::Key { seat, device, time, key: 30, pressed: true },
        Request::Frame { seat, device, time, serial: 7 },
        Request::Disconnect,
    ];
    assert_eq!(requests, wanted);
    let done = message(1, 0, &[Long(0)]);
    let resumed = message(ID, 7, &[Word(SERIAL + 1)]);
    // Where all came in one piece the client has left before it is acted on.
    let whole = cut >= sent.len();
    let wanted = if whole { done } else { [resumed, done].concat() };
    assert!(got == wanted, "{cut}: another reply");
}

#[test]
fn a_client_in_odd_cuts() {
    for cut in [1, 7, 16, 24, 4096] {
        for most in [1, 5, 4096] {
            plays(cut, most);
        }
    }
}

#[test]
fn nothing_to_do_is_no_error() {
    let (mut client, mut peer) = pair();
    assert_eq!(peer.interest(), Interest::Write);
    for _ in 0..3 {
        peer.turn(now()).unwrap();
        assert_eq!(peer.interest(), Interest::Read);
        assert_eq!((peer.end(), peer.client()), (None, None));
    }
    assert_eq!(peer.resume(DEVICE), Err(TellError::NotConnected));
    assert_eq!(peer.interest(), Interest::Read, "a refused call tells nothing");
    client.write_all(&handshake(RECEIVER, "probe")).unwrap();
    client.shutdown(Shutdown::Write).unwrap();
    for _ in 0..3 {
        peer.turn(now()).unwrap();
    }
    assert!(peer.is_done());
    let known = peer.client().unwrap();
    assert_eq!((known.name.as_deref(), known.context_type), (Some("probe"), ContextType::Receiver));
    assert_eq!(peer.end(), Some(End::EndOfInput));
    assert_eq!(peer.closed_descriptors(), 0);
    assert!(read_now(&mut client, 4096) == welcome(SERIAL));
}

#[test]
fn a_client_that_has_gone() {
    let (mut client, mut peer) = with_device(SENDER);
    client.write_all(&message(ID, 4, &[])).unwrap();
    client.write_all(&message(CONNECTION, 0, &[Long(1), Word(1)])).unwrap();
    drop(client);
    assert_eq!(peer.turn(0).unwrap_err().kind(), ErrorKind::BrokenPipe);
    let ready = Request::Ready { seat: SEAT, device: DEVICE };
    assert_eq!(peer.next_request(), Some(ready));
    assert_eq!((peer.next_request(), peer.end()), (None, None));
    assert!(!peer.is_done(), "all is written");
}

/// It is told more and more: that waits, and nothing is read meanwhile. Once it reads, all of it comes in its order.
#[test]
fn a_client_that_never_reads() -> io::Result<()> {
    const MANY: u32 = 20_000;
    let (mut client, mut peer) = with_device(RECEIVER);
    client.write_all(&message(FIRST_SEAT, 1, &[Long(1)]))?;
    for sequence in 0..MANY {
        peer.start_emulating(DEVICE, sequence).unwrap();
        peer.turn(0)?;
    }
    assert_eq!(peer.interest(), Interest::Write);
    let unread = peer.next_request();
    assert!(unread.is_some(), "it was read before the socket was full");
    client.write_all(&message(FIRST_SEAT, 1, &[Long(2)]))?;
    peer.turn(0)?;
    assert_eq!(peer.next_request(), None);
    let mut got = Vec::new();
    while peer.interest() == Interest::Write {
        got.extend(read_now(&mut client, 1 << 20));
        peer.turn(0)?;
    }
    got.extend(read_now(&mut client, 1 << 20));
    let told = |sequence| message(ID, 9, &[Word(SERIAL + 1 + sequence), Word(sequence)]);
    assert!(got == (0..MANY).flat_map(told).collect::<Vec<_>>(), "another reply");
    let capabilities = Capabilities::POINTER_ABSOLUTE;
    assert_eq!(peer.next_request(), Some(Request::Bind { seat: SEAT, capabilities }));
    Ok(())
}

/// A client that breaks the protocol, and is told so.
#[test]
fn a_client_that_is_over_is_told_why() {
    let (mut client, mut peer) = with_device(SENDER);
    client.write_all(&[message(ID, 4, &[]), message(ID, 99, &[])].concat()).unwrap();
    peer.turn(0).unwrap();
    assert!(peer.is_done(), "nothing waits");
    let Some(End::Failed(error)) = peer.end() else {
        panic!("{:?}", peer.end());
    };
    assert_eq!(error.to_string(), "parse_invalid_opcode");
    peer.disconnect(Reason::Protocol, None).unwrap();
    assert_eq!(peer.interest(), Interest::Write);
    peer.turn(0).unwrap();
    assert!(peer.is_done());
    let mut wanted = destroyed((ID + 1..=ID + 8).chain([ID, FIRST_SEAT]), SERIAL + 1);
    wanted.extend(message(CONNECTION, 0, &[Word(SERIAL + 10), Word(3), Null]));
    assert!(read_now(&mut client, 4096) == wanted);
    assert_eq!(peer.disconnect(Reason::Protocol, None), Err(TellError::Over));
    assert_eq!(peer.next_request().unwrap().name(), "ready");
}
