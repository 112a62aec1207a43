//! Descriptors of keymaps. It has a process of its own, for the count of open files and for the limit.

mod common;

use common::wire::{device, handshake, message, seat, welcome, Arg, FIRST_SEAT, SENDER};
use paltukwi::{
    Capabilities, DeviceId, DeviceSetup, Keymap, KeymapFile, Link, Peer, SeatId, TellError,
    MOST_HANDLES,
};
use std::ffi::{c_int, c_uint, c_void};
use std::fs::{self, File};
use std::io::{self, ErrorKind, Read, Seek, Write};
use std::os::fd::{AsFd, AsRawFd, FromRawFd};
use std::os::unix::net::UnixStream;
use Arg::Word;

const SEAT: SeatId = SeatId(FIRST_SEAT);
const TEXT: &str = "xkb_keymap {\n};\n";
const RLIMIT_NOFILE: c_uint = 7;
const EMFILE: i32 = 24;

extern "C" {
    fn setrlimit(resource: c_uint, limits: *const [u64; 2]) -> c_int;
    fn recvmsg(socket: c_int, message: *mut Message, flags: c_int) -> isize;
}

fn open_files() -> usize {
    fs::read_dir("/proc/self/fd").unwrap().count()
}

/// What stands in the file from its beginning on.
fn text_of(file: impl AsFd) -> Vec<u8> {
    let mut file = File::from(file.as_fd().try_clone_to_owned().unwrap());
    let mut bytes = Vec::new();
    file.rewind().unwrap();
    file.read_to_end(&mut bytes).unwrap();
    bytes
}

fn with_seat() -> Link {
    let mut link = Link::start(7).unwrap();
    link.feed(&handshake(SENDER, "probe"), &[], 0).unwrap();
    assert_eq!(link.add_seat(None, Capabilities::KEYBOARD), Ok(SEAT));
    let count = link.unsent().bytes.len();
    link.sent(count).unwrap();
    link
}

fn keyboard<'a>(keymap: Keymap<'a>) -> DeviceSetup<'a> {
    let capabilities = Capabilities::KEYBOARD;
    DeviceSetup { capabilities, keymap: Some(keymap), ..DeviceSetup::default() }
}

/// What a client is told of a keyboard of that id, whose keymap has so many bytes.
fn keyboard_told(id: u64, size: u32) -> Vec<u8> {
    let mut bytes = device(FIRST_SEAT, id, None, 1, 4);
    bytes.extend(message(id + 1, 1, &[Word(1), Word(size)]));
    bytes.extend(message(id, 6, &[]));
    bytes
}

// ---- files

fn a_keymap_file_stays_as_it_is() {
    let keymap = KeymapFile::xkb(TEXT).unwrap();
    let wanted = [TEXT.as_bytes(), &[0]].concat();
    assert_eq!(text_of(&keymap), wanted);
    let mut file = File::from(keymap.as_fd().try_clone_to_owned().unwrap());
    file.rewind().unwrap();
    assert_eq!(file.write(b"y").unwrap_err().kind(), ErrorKind::PermissionDenied);
    assert!(file.set_len(1).is_err() && file.set_len(100).is_err());
    assert_eq!(text_of(&keymap), wanted);
}

// ---- links

/// The program closes its own at once; the link's is open until the first byte is written.
fn a_keymap_waits_with_the_bytes() {
    let (mut link, before) = (with_seat(), open_files());
    let file = KeymapFile::xkb(TEXT).unwrap();
    assert_eq!(link.add_device(SEAT, &keyboard(file.keymap())), Ok(DeviceId(FIRST_SEAT + 1)));
    drop(file);
    assert_eq!(open_files(), before + 1);
    link.sent(0).unwrap();
    let unsent = link.unsent();
    assert_eq!(unsent.bytes, keyboard_told(FIRST_SEAT + 1, 17));
    assert_eq!(unsent.handles.len(), 1);
    assert_eq!(text_of(&unsent.handles[0]), [TEXT.as_bytes(), &[0]].concat());
    link.sent(1).unwrap();
    assert_eq!(open_files(), before);
    assert_eq!(link.unsent().bytes, &keyboard_told(FIRST_SEAT + 1, 17)[1..]);
    assert!(link.unsent().handles.is_empty());
}

/// A file of the program's own choice, in its own size; and a link that goes before anything is written.
fn a_link_that_is_dropped_closes_them() {
    let before = open_files();
    let mut link = with_seat();
    let file = File::open("/proc/self/status").unwrap();
    let setup = keyboard(Keymap::xkb(&file, 4097));
    for place in 0..3 {
        let id = FIRST_SEAT + 1 + 2 * place;
        assert_eq!(link.add_device(SEAT, &setup), Ok(DeviceId(id)));
    }
    let wanted = [1, 3, 5].map(|place| keyboard_told(FIRST_SEAT + place, 4097)).concat();
    assert_eq!(link.unsent().bytes, wanted);
    assert_eq!(link.unsent().handles.len(), 3);
    assert_eq!(open_files(), before + 4);
    drop(link);
    assert_eq!(open_files(), before + 1);
}

fn no_more_than_64_wait() {
    let mut link = with_seat();
    let file = KeymapFile::xkb(TEXT).unwrap();
    let setup = keyboard(file.keymap());
    for _ in 0..MOST_HANDLES {
        link.add_device(SEAT, &setup).unwrap();
    }
    let (before, count) = (open_files(), link.unsent().bytes.len());
    assert_eq!(link.add_device(SEAT, &setup), Err(TellError::TooManyHandles));
    assert_eq!((open_files(), link.unsent().bytes.len()), (before, count));
    assert_eq!(link.unsent().handles.len(), MOST_HANDLES);
    assert!(link.add_device(SEAT, &DeviceSetup::default()).is_ok());
    link.sent(1).unwrap();
    assert_eq!(open_files(), before - MOST_HANDLES);
    assert!(link.add_device(SEAT, &setup).is_ok());
}

/// No room for one more open file: the call changes nothing, and can be made again.
fn no_room_for_a_duplicate() {
    let (mut link, file) = (with_seat(), KeymapFile::xkb(TEXT).unwrap());
    let setup = keyboard(file.keymap());
    let limit = |limit| {
        // SAFETY: the limits are two numbers.
        assert_eq!(unsafe { setrlimit(RLIMIT_NOFILE, &[limit, 1024]) }, 0);
    };
    limit(4);
    assert_eq!(link.add_device(SEAT, &setup), Err(TellError::Descriptor { code: EMFILE }));
    assert!(KeymapFile::xkb(TEXT).is_err());
    limit(1024);
    assert!(link.unsent().bytes.is_empty());
    assert_eq!(link.add_device(SEAT, &setup), Ok(DeviceId(FIRST_SEAT + 1)));
    assert_eq!(link.unsent().bytes, keyboard_told(FIRST_SEAT + 1, 17));
}

// ---- over a socket

#[repr(C)]
struct Part {
    at: *mut c_void,
    count: usize,
}

#[repr(C)]
struct Message {
    name: *mut c_void,
    name_length: u32,
    parts: *mut Part,
    part_count: usize,
    control: *mut c_void,
    control_length: usize,
    flags: c_int,
}

/// Reads at most so many bytes, and the one descriptor that comes with them, if one does.
fn read_some(client: &UnixStream, most: usize) -> io::Result<(Vec<u8>, Option<File>)> {
    let mut bytes = vec![0; most];
    let mut control = [0_u64; 3];
    let mut part = Part { at: bytes.as_mut_ptr().cast(), count: most };
    let mut message = Message {
        name: std::ptr::null_mut(),
        name_length: 0,
        parts: &mut part,
        part_count: 1,
        control: control.as_mut_ptr().cast(),
        control_length: size_of_val(&control),
        flags: 0,
    };
    // SAFETY: the message points to one part and to the control, which live until the call is done.
    let count = unsafe { recvmsg(client.as_raw_fd(), &mut message, 0) };
    bytes.truncate(usize::try_from(count).map_err(|_| io::Error::last_os_error())?);
    if message.control_length == 0 {
        return Ok((bytes, None));
    }
    // Twenty bytes, SOL_SOCKET and SCM_RIGHTS.
    assert_eq!((control[0], control[1]), (20, 1 | 1 << 32));
    let number = c_int::from_ne_bytes(control[2].to_ne_bytes()[..4].try_into().unwrap());
    // SAFETY: the system opened it for this process, and nothing else owns it.
    Ok((bytes, Some(unsafe { File::from_raw_fd(number) })))
}

/// The descriptor comes with the first of the bytes, once, however few are read at a time.
fn a_keymap_crosses_a_socket() {
    let before = open_files();
    let (mut client, server) = UnixStream::pair().unwrap();
    client.set_nonblocking(true).unwrap();
    let mut peer = Peer::open(server, 7).unwrap();
    client.write_all(&handshake(SENDER, "probe")).unwrap();
    peer.turn(0).unwrap();
    assert_eq!(peer.add_seat(None, Capabilities::KEYBOARD), Ok(SEAT));
    let file = KeymapFile::xkb(TEXT).unwrap();
    let id = peer.add_device(SEAT, &keyboard(file.keymap())).unwrap();
    peer.resume(id).unwrap();
    drop(file);
    peer.turn(0).unwrap();
    let (mut got, mut files) = (Vec::new(), Vec::new());
    while let Ok((bytes, file)) = read_some(&client, 3) {
        got.extend(bytes);
        files.extend(file);
    }
    let mut wanted = welcome(7);
    wanted.extend(seat(FIRST_SEAT, None, 4));
    wanted.extend(keyboard_told(id.0, 17));
    wanted.extend(message(id.0, 7, &[Word(8)]));
    assert!(got == wanted, "another reply");
    assert_eq!(files.len(), 1);
    assert_eq!(text_of(&files[0]), [TEXT.as_bytes(), &[0]].concat());
    drop(files);
    assert_eq!(open_files(), before + 2, "the two ends of the socket");
}

/// One behind another, since they count the open files of the process.
#[test]
fn keymaps() {
    a_keymap_file_stays_as_it_is();
    a_keymap_waits_with_the_bytes();
    a_link_that_is_dropped_closes_them();
    no_more_than_64_wait();
    no_room_for_a_duplicate();
    a_keymap_crosses_a_socket();
}
