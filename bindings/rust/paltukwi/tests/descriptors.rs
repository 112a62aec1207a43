//! A client that passes descriptors without end, where few files may be open. It has a process of its own, for the limit.

mod common;

use common::{pair, turns, worked};
use paltukwi::{now, Connection};
use std::ffi::{c_int, c_uint, c_void};
use std::fs::{self, File};
use std::io::{Read, Write};
use std::os::fd::{AsRawFd, RawFd};
use std::os::unix::net::UnixStream;

const RLIMIT_NOFILE: c_uint = 7;

#[repr(C)]
struct Part {
    at: *const c_void,
    count: usize,
}

#[repr(C)]
struct Message {
    name: *mut c_void,
    name_length: u32,
    parts: *const Part,
    part_count: usize,
    control: *const c_void,
    control_length: usize,
    flags: c_int,
}

extern "C" {
    fn setrlimit(resource: c_uint, limits: *const [u64; 2]) -> c_int;
    fn sendmsg(socket: c_int, message: *const Message, flags: c_int) -> isize;
}

/// Sends a byte, and the descriptor with it, so many times. Whether it was sent.
fn pass(stream: &UnixStream, byte: u8, descriptor: RawFd, times: usize) -> bool {
    let length = 16 + 4 * times;
    let mut control = length.to_ne_bytes().to_vec();
    control.extend(1_i32.to_ne_bytes()); // SOL_SOCKET
    control.extend(1_i32.to_ne_bytes()); // SCM_RIGHTS
    (0..times).for_each(|_| control.extend(descriptor.to_ne_bytes()));
    control.resize(length.next_multiple_of(8), 0);
    let part = Part { at: std::ptr::from_ref(&byte).cast(), count: 1 };
    let message = Message {
        name: std::ptr::null_mut(),
        name_length: 0,
        parts: &part,
        part_count: 1,
        control: control.as_ptr().cast(),
        control_length: control.len(),
        flags: 0,
    };
    // SAFETY: the message points to one part and to the control, which live until the call is done.
    unsafe { sendmsg(stream.as_raw_fd(), &message, 0) == 1 }
}

fn open_files() -> usize {
    fs::read_dir("/proc/self/fd").unwrap().count()
}

/// Plays the whole session behind what was sent of it.
fn plays_on(client: &mut UnixStream, connection: &mut Connection, rest: &[u8]) {
    client.write_all(rest).unwrap();
    let requests = turns(connection).unwrap();
    assert_eq!(requests, ["disconnect"]);
    assert!(connection.is_done());
}

#[test]
fn five_hundred_descriptors_where_64_files_may_be_open() {
    let leaves = worked("leaves");
    let file = File::open("/proc/self/status").unwrap();
    // SAFETY: the limits are two numbers.
    assert_eq!(unsafe { setrlimit(RLIMIT_NOFILE, &[64, 64]) }, 0);
    let (mut client, mut connection) = pair(&leaves.setup());
    let before = open_files();

    // Each byte of the client's comes with some: 25 at a time are taken, and closed.
    for round in 0..20 {
        assert!(pass(&client, leaves.client[round], file.as_raw_fd(), 25));
        connection.turn(now()).unwrap();
        assert_eq!(open_files(), before, "round {round}");
    }
    assert_eq!(connection.closed_descriptors(), 500);
    assert_eq!(connection.end(), None);

    // More than there is room for: the system closes what it can't hand over, and the client is served on. Who may not pass
    // so many at once has sent none of it.
    let mut sent = 20;
    for _ in 0..3 {
        if pass(&client, leaves.client[sent], file.as_raw_fd(), 253) {
            sent += 1;
        }
        connection.turn(now()).unwrap();
        assert_eq!(open_files(), before);
    }

    // Another client can connect meanwhile, and both are served.
    let (mut other, mut second) = pair(&leaves.setup());
    plays_on(&mut other, &mut second, &leaves.client);
    plays_on(&mut client, &mut connection, &leaves.client[sent..]);
    let mut got = vec![0; leaves.server.len()];
    client.read_exact(&mut got).unwrap();
    assert_eq!(got, leaves.server);
}
