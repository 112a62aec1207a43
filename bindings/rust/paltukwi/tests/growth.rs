//! A thousand sessions and a thousand links leave no memory and no descriptor behind. It has a process of its own, for the count.

mod common;

use common::wire::{handshake, message, Arg, CONNECTION, FIRST_SEAT, RECEIVER, SENDER};
use common::{all_worked, pair, read_now, turns, Worked};
use paltukwi::{Capabilities, DeviceSetup, End, Input, KeymapFile, Peer, Reason, Region, Request};
use std::fs;
use std::io::Write;
use std::net::Shutdown;
use std::os::unix::net::UnixStream;
use Arg::{Long, Word};

/// The memory of this process that is there, in kilobytes.
fn resident() -> u64 {
    let status = fs::read_to_string("/proc/self/status").unwrap();
    let line = status.lines().find(|line| line.starts_with("VmRSS:"));
    let number = line.unwrap().split_whitespace().nth(1).unwrap();
    number.parse().unwrap()
}

fn open_files() -> usize {
    fs::read_dir("/proc/self/fd").unwrap().count()
}

fn play(worked: &Worked) {
    let (mut client, mut connection) = pair(&worked.setup());
    client.write_all(&worked.client).unwrap();
    client.shutdown(Shutdown::Write).unwrap();
    let requests = turns(&mut connection).unwrap();
    assert_eq!(requests.len(), worked.requests.len());
    assert_eq!(read_now(&mut client, 10_000).len(), worked.server.len());
    assert!(connection.is_done());
}

/// Half of each session, which is let go of in its middle.
fn break_off(worked: &Worked) {
    let (mut client, mut connection) = pair(&worked.setup());
    client.write_all(&worked.client[..worked.client.len() / 2]).unwrap();
    turns(&mut connection).unwrap();
}

/// A device of all capabilities, with a region and a keymap, of a client's new seat.
fn tell(peer: &mut Peer, file: &KeymapFile) {
    let seat = peer.add_seat(Some("default"), Capabilities::ALL).unwrap();
    let mapping_id = Some("left");
    let setup = DeviceSetup {
        name: Some("desk"),
        capabilities: Capabilities::ALL,
        regions: &[Region { x: 0, y: 0, width: 1920, height: 1080, scale: 1.0, mapping_id }],
        keymap: Some(file.keymap()),
        ..DeviceSetup::default()
    };
    let device = peer.add_device(seat, &setup).unwrap();
    peer.resume(device).unwrap();
    if peer.send(device, &Input::TextUtf8 { text: "h\u{e9}".to_string() }).is_ok() {
        peer.frame(device, 5).unwrap();
    }
}

/// A client that sends or receives, with input both ways; it leaves, is told to leave, or is let go of with all that waits.
fn serve(round: usize, file: &KeymapFile) {
    let keyboard = FIRST_SEAT + 4;
    let (mut client, server) = UnixStream::pair().unwrap();
    client.set_nonblocking(true).unwrap();
    let mut peer = Peer::open(server, 1).unwrap();
    client.write_all(&handshake(if round % 2 == 0 { SENDER } else { RECEIVER }, "probe")).unwrap();
    peer.turn(0).unwrap();
    assert_eq!(peer.next_request(), Some(Request::Connected));
    tell(&mut peer, file);
    if round % 3 == 2 {
        return;
    }
    peer.turn(0).unwrap();
    client.write_all(&message(keyboard, 1, &[Word(30), Word(1)])).unwrap();
    client.write_all(&message(FIRST_SEAT + 1, 3, &[Word(1), Long(1)])).unwrap();
    if round % 3 == 0 {
        client.write_all(&message(CONNECTION, 1, &[])).unwrap();
    }
    peer.turn(0).unwrap();
    assert_eq!(peer.next_request().unwrap().name(), "key");
    if round % 3 == 1 {
        peer.disconnect(Reason::Disconnected, Some("bye")).unwrap();
    }
    peer.turn(0).unwrap();
    let end = [Some(End::Disconnected), Some(End::Told)];
    assert!(peer.is_done() && peer.end() == end[round % 3]);
}

#[test]
fn a_thousand_of_each_leave_nothing_behind() {
    let (sessions, file) = (all_worked(), KeymapFile::xkb("xkb_keymap {};").unwrap());
    let rounds = |count: usize| {
        for worked in sessions.iter().cycle().take(count) {
            play(worked);
            break_off(worked);
        }
        (0..count).for_each(|round| serve(round, &file));
    };
    rounds(100);
    let (memory, files) = (resident(), open_files());
    rounds(1000);
    assert_eq!(open_files(), files);
    let grown = resident().saturating_sub(memory);
    assert!(grown <= 256, "{grown} kB more than {memory} kB");
}
