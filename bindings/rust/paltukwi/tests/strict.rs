//! What a link refuses by [`Policy::Strict`], and a peer tells, with messages that are written from `docs/PROTOCOL.md` alone. What is to be
//! handed out is worked by hand from what the policy says.

mod common;

use common::read_now;
use common::wire::{handshake, message, Arg, CONNECTION, FIRST_SEAT, RECEIVER, SENDER};
use paltukwi::{
    Capabilities, DeviceId, DeviceSetup, End, Interest, Link, Peer, Policy, Request, SeatId,
    TellError,
};
use std::io::{Read, Write};
use std::os::unix::net::UnixStream;
use Arg::{Long, Text, Word};

const SERIAL: u32 = 7;
const SEAT: SeatId = SeatId(FIRST_SEAT);
const ID: u64 = FIRST_SEAT + 1;
const DEVICE: DeviceId = DeviceId(ID);

// ---- what a client asks of its device, whose keyboard is the id behind it

fn start() -> Vec<u8> {
    message(ID, 1, &[Word(SERIAL), Word(1)])
}

fn stop() -> Vec<u8> {
    message(ID, 2, &[Word(SERIAL)])
}

fn frame() -> Vec<u8> {
    message(ID, 3, &[Word(SERIAL), Long(5)])
}

fn key(state: u32) -> Vec<u8> {
    message(ID + 1, 1, &[Word(30), Word(state)])
}

// ---- a link

/// Behind the handshake, with a seat and a keyboard that takes input: all that the client was told is written.
fn begun(role: u32, policy: Policy) -> Link {
    let mut link = Link::start_with(SERIAL, policy).unwrap();
    link.feed(&handshake(role, "probe"), &[], 0).unwrap();
    assert_eq!(link.next_request(), Some(Request::Connected));
    let capabilities = Capabilities::KEYBOARD;
    assert_eq!(link.add_seat(None, capabilities), Ok(SEAT));
    let setup = DeviceSetup { capabilities, ..DeviceSetup::default() };
    assert_eq!(link.add_device(SEAT, &setup), Ok(DEVICE));
    link.resume(DEVICE).unwrap();
    let waiting = link.unsent().bytes.len();
    link.sent(waiting).unwrap();
    link
}

/// What a client that is ended is told: all is gone, and why.
fn told(text: &str) -> Vec<u8> {
    let mut bytes = Vec::new();
    for (id, serial) in [ID + 1, ID, FIRST_SEAT].into_iter().zip(SERIAL + 2..) {
        bytes.extend(message(id, 0, &[Word(serial)]));
    }
    bytes.extend(message(CONNECTION, 0, &[Word(SERIAL + 4), Word(3), Text(text)]));
    bytes
}

/// What a client asks, what the program does before it takes that, the names of what it takes, and the text that ends the client.
struct Case {
    role: u32,
    asked: Vec<Vec<u8>>,
    acts: fn(&mut Link) -> Result<(), TellError>,
    handed: &'static [&'static str],
    text: Option<&'static str>,
}

fn case(asked: &[Vec<u8>], handed: &'static [&'static str], text: Option<&'static str>) -> Case {
    Case { role: SENDER, asked: asked.to_vec(), acts: |_| Ok(()), handed, text }
}

fn cases() -> Vec<Case> {
    let not_emulating = Some("input without start_emulating");
    let way = [start(), key(1), frame(), stop(), stop()];
    vec![
        case(
            &[start(), key(1), frame(), key(0), frame(), stop()],
            &["start_emulating", "key", "frame", "key", "frame", "stop_emulating"],
            None,
        ),
        case(&[key(1), frame()], &[], not_emulating),
        case(
            &[start(), stop(), key(1), frame()],
            &["start_emulating", "stop_emulating"],
            not_emulating,
        ),
        case(&[start(), start()], &["start_emulating"], Some("start_emulating while emulating")),
        case(&[stop()], &[], Some("stop_emulating without start_emulating")),
        case(
            &[start(), key(0), key(1), key(1), key(0), key(0), frame()],
            &["start_emulating", "key", "key", "frame"],
            None,
        ),
        Case { acts: |link| link.pause(DEVICE), ..case(&way, &[], None) },
        Case { acts: |link| link.remove_device(DEVICE), ..case(&way, &[], None) },
        Case { role: RECEIVER, ..case(&[start()], &[], Some("events of a receiver")) },
    ]
}

/// The names of what is handed out.
fn names(link: &mut Link) -> Vec<&'static str> {
    std::iter::from_fn(|| link.next_request().map(|request| request.name())).collect()
}

#[test]
fn a_strict_link_refuses_what_libeis_refuses() {
    for (place, Case { role, asked, acts, handed, text }) in cases().into_iter().enumerate() {
        let mut link = begun(role, Policy::Strict);
        link.feed(&asked.concat(), &[], 0).unwrap();
        acts(&mut link).unwrap();
        let waiting = link.unsent().bytes.len();
        assert_eq!(names(&mut link), handed, "{place}");
        assert_eq!(link.unsent().bytes[waiting..], text.map(told).unwrap_or_default(), "{place}");
        assert_eq!(link.end(), text.map(|_| End::Told), "{place}");
    }
}

#[test]
fn any_other_link_hands_all_out() {
    assert_eq!(Policy::default(), Policy::Protocol);
    for (place, Case { role, asked, acts, .. }) in cases().into_iter().enumerate() {
        let mut link = begun(role, Policy::Protocol);
        link.feed(&asked.concat(), &[], 0).unwrap();
        acts(&mut link).unwrap();
        assert_eq!(names(&mut link).len(), asked.len(), "{place}");
        assert_eq!(link.end(), None, "{place}");
    }
}

// ---- a peer

/// The client is told by the turn behind the request that ends it.
#[test]
fn a_strict_peer_tells_the_client() {
    let (mut client, server) = UnixStream::pair().unwrap();
    client.set_nonblocking(true).unwrap();
    let mut peer = Peer::open_with(server, SERIAL, Policy::Strict).unwrap();
    client.write_all(&handshake(SENDER, "probe")).unwrap();
    peer.turn(0).unwrap();
    assert_eq!(peer.next_request(), Some(Request::Connected));
    let capabilities = Capabilities::KEYBOARD;
    peer.add_seat(None, capabilities).unwrap();
    let setup = DeviceSetup { capabilities, ..DeviceSetup::default() };
    peer.add_device(SEAT, &setup).unwrap();
    peer.resume(DEVICE).unwrap();
    peer.turn(0).unwrap();
    read_now(&mut client, 4096);
    client.write_all(&[start(), key(1), frame()].concat()).unwrap();
    peer.turn(0).unwrap();
    for name in ["start_emulating", "key", "frame"] {
        assert_eq!(peer.next_request().unwrap().name(), name);
        assert_eq!((peer.interest(), peer.end()), (Interest::Read, None));
    }
    client.write_all(&start()).unwrap();
    peer.turn(0).unwrap();
    assert_eq!((peer.interest(), peer.end()), (Interest::Read, None));
    assert_eq!(peer.next_request(), None);
    assert_eq!((peer.interest(), peer.end()), (Interest::Write, Some(End::Told)));
    assert!(!peer.is_done());
    peer.turn(0).unwrap();
    assert!(peer.is_done());
    assert!(read_now(&mut client, 4096) == told("start_emulating while emulating"));
    drop(peer);
    assert_eq!(client.read(&mut [0]).unwrap(), 0, "more behind the end");
}
