//! Calls of the system that the standard library has not, as Linux lays them out on a machine of 64 bits.

use crate::wait::Interest;
use std::ffi::{c_char, c_int, c_short, c_uint, c_ulong, c_void, CStr};
use std::fs::File;
use std::io::{self, Write};
use std::mem::size_of;
use std::os::fd::{AsRawFd, BorrowedFd, FromRawFd, OwnedFd};
use std::ptr::null_mut;

const SOL_SOCKET: c_int = 1;
const SCM_RIGHTS: c_int = 1;
const MSG_DONTWAIT: c_int = 0x40;
const MSG_NOSIGNAL: c_int = 0x4000;
const MSG_CMSG_CLOEXEC: c_int = 0x4000_0000;
const POLLIN: c_short = 1;
const POLLOUT: c_short = 4;
const LOCK_EX: c_int = 2;
const LOCK_NB: c_int = 4;
const CLOCK_MONOTONIC: c_int = 1;
const MFD_CLOEXEC: c_uint = 1;
const MFD_ALLOW_SEALING: c_uint = 2;
const F_ADD_SEALS: c_int = 1033;

/// No more seals, no fewer bytes, no more, and no other ones.
const ALL_SEALS: c_int = 1 | 2 | 4 | 8;

/// The most descriptors that Linux lets a client pass at a time.
const MOST_DESCRIPTORS: usize = 253;

/// The most descriptors that are passed at a time.
const MOST_PASSED: usize = paltukwi_sys::REIS_MOST_HANDLES;

/// What stands before the descriptors: a length in eight bytes, and two numbers in four each.
const HEAD: usize = 16;

/// Room for the descriptors of a message and for the client's credentials, which come before them where the socket asks for
/// these.
const CONTROL_ROOM: usize = HEAD + MOST_DESCRIPTORS * 4 + 64;

#[repr(C)]
struct Part {
    at: *mut c_void,
    count: usize,
}

#[repr(C)]
struct Message {
    name: *mut c_void,
    name_length: u32,
    parts: *mut Part,
    part_count: usize,
    control: *mut c_void,
    control_length: usize,
    flags: c_int,
}

#[repr(C, align(8))]
struct Control([u8; CONTROL_ROOM]);

#[repr(C)]
struct Polled {
    descriptor: c_int,
    wanted: c_short,
    found: c_short,
}

#[repr(C)]
struct Time {
    seconds: i64,
    nanoseconds: i64,
}

extern "C" {
    fn recvmsg(socket: c_int, message: *mut Message, flags: c_int) -> isize;
    fn sendmsg(socket: c_int, message: *const Message, flags: c_int) -> isize;
    fn poll(polled: *mut Polled, count: c_ulong, milliseconds: c_int) -> c_int;
    fn flock(file: c_int, operation: c_int) -> c_int;
    fn clock_gettime(clock: c_int, time: *mut Time) -> c_int;
    fn memfd_create(name: *const c_char, flags: c_uint) -> c_int;
    fn fcntl(descriptor: c_int, operation: c_int, ...) -> c_int;
}

/// Receives what is there: how many bytes, none at the end, and the descriptors that came with them. It doesn't wait.
///
/// Descriptors that this process has no room for are closed by the system.
pub fn receive(socket: BorrowedFd<'_>, bytes: &mut [u8]) -> io::Result<(usize, Vec<OwnedFd>)> {
    let mut control = Control([0; CONTROL_ROOM]);
    let mut part = Part { at: bytes.as_mut_ptr().cast(), count: bytes.len() };
    let mut message = Message {
        name: null_mut(),
        name_length: 0,
        parts: &mut part,
        part_count: 1,
        control: control.0.as_mut_ptr().cast(),
        control_length: CONTROL_ROOM,
        flags: 0,
    };
    let flags = MSG_DONTWAIT | MSG_CMSG_CLOEXEC;
    // SAFETY: the message points to one part and to the control, which live until the call is done.
    let count = unsafe { recvmsg(socket.as_raw_fd(), &mut message, flags) };
    let count = usize::try_from(count).map_err(|_| io::Error::last_os_error())?;
    let control_length = message.control_length.min(CONTROL_ROOM);
    // SAFETY: the system wrote this control.
    Ok((count, unsafe { descriptors(&control.0[..control_length]) }))
}

/// The descriptors of what the system wrote beside the bytes: parts, each of a head and what belongs to it, that begin at
/// multiples of eight bytes.
///
/// # Safety
///
/// The system wrote it, and nothing else owns the descriptors in it.
unsafe fn descriptors(mut control: &[u8]) -> Vec<OwnedFd> {
    let mut owned = Vec::new();
    while let Some((length, level, kind)) = head(control) {
        if (level, kind) == (SOL_SOCKET, SCM_RIGHTS) {
            for number in control[HEAD..length].chunks_exact(4) {
                let number = c_int::from_ne_bytes([number[0], number[1], number[2], number[3]]);
                // SAFETY: the system opened it for this process, and nothing else owns it.
                owned.push(unsafe { OwnedFd::from_raw_fd(number) });
            }
        }
        control = control.get(length.next_multiple_of(8)..).unwrap_or(&[]);
    }
    owned
}

/// The length, the level and the kind of the first part, where there is one.
fn head(control: &[u8]) -> Option<(usize, c_int, c_int)> {
    let length = usize::from_ne_bytes(control.get(..8)?.try_into().ok()?);
    let level = c_int::from_ne_bytes(control.get(8..12)?.try_into().ok()?);
    let kind = c_int::from_ne_bytes(control.get(12..HEAD)?.try_into().ok()?);
    (HEAD..=control.len()).contains(&length).then_some((length, level, kind))
}

/// Sends the first bytes, as many as the socket takes, and with the first of them the descriptors, at most 64: how many. It
/// doesn't wait, and no signal comes where nobody reads.
pub fn send_some(
    socket: BorrowedFd<'_>,
    bytes: &[u8],
    descriptors: &[OwnedFd],
) -> io::Result<usize> {
    let mut control = Control([0; CONTROL_ROOM]);
    let control_length = write_control(&mut control, descriptors);
    let mut part = Part { at: bytes.as_ptr().cast_mut().cast(), count: bytes.len() };
    let message = Message {
        name: null_mut(),
        name_length: 0,
        parts: &mut part,
        part_count: 1,
        control: control.0.as_mut_ptr().cast(),
        control_length,
        flags: 0,
    };
    let flags = MSG_DONTWAIT | MSG_NOSIGNAL;
    // SAFETY: the message points to one part, which isn't written, and to the control; both live until the call is done.
    let count = unsafe { sendmsg(socket.as_raw_fd(), &message, flags) };
    usize::try_from(count).map_err(|_| io::Error::last_os_error())
}

/// Writes the one part of the control that passes the descriptors, if there are any: how many bytes it has.
fn write_control(control: &mut Control, descriptors: &[OwnedFd]) -> usize {
    assert!(descriptors.len() <= MOST_PASSED, "so many are never unsent");
    if descriptors.is_empty() {
        return 0;
    }
    let length = HEAD + 4 * descriptors.len();
    control.0[..8].copy_from_slice(&length.to_ne_bytes());
    control.0[8..12].copy_from_slice(&SOL_SOCKET.to_ne_bytes());
    control.0[12..HEAD].copy_from_slice(&SCM_RIGHTS.to_ne_bytes());
    for (room, descriptor) in control.0[HEAD..].chunks_exact_mut(4).zip(descriptors) {
        room.copy_from_slice(&descriptor.as_raw_fd().to_ne_bytes());
    }
    length.next_multiple_of(8)
}

/// A file in memory with these bytes, which nobody can change any more.
pub fn sealed_file(name: &CStr, bytes: &[u8]) -> io::Result<OwnedFd> {
    // SAFETY: a zero ends the name.
    let descriptor = unsafe { memfd_create(name.as_ptr(), MFD_CLOEXEC | MFD_ALLOW_SEALING) };
    if descriptor < 0 {
        return Err(io::Error::last_os_error());
    }
    // SAFETY: the system opened it for this call, and nothing else owns it.
    let mut file = unsafe { File::from_raw_fd(descriptor) };
    file.write_all(bytes)?;
    // SAFETY: the file is open, and the operation takes one number.
    if unsafe { fcntl(descriptor, F_ADD_SEALS, ALL_SEALS) } != 0 {
        return Err(io::Error::last_os_error());
    }
    Ok(file.into())
}

/// Waits until something can be done at one of the sockets, at most so many milliseconds, or without end where it is -1:
/// whether something can be done at each.
pub fn poll_all(
    sockets: &[(BorrowedFd<'_>, Interest)],
    milliseconds: c_int,
) -> io::Result<Vec<bool>> {
    let polled_of = |(socket, interest): &(BorrowedFd<'_>, Interest)| Polled {
        // A number below zero is passed over.
        descriptor: if *interest == Interest::Nothing { -1 } else { socket.as_raw_fd() },
        wanted: if *interest == Interest::Write { POLLOUT } else { POLLIN },
        found: 0,
    };
    let mut polled: Vec<Polled> = sockets.iter().map(polled_of).collect();
    // SAFETY: the pointer and the count are one vector's, and its descriptors are open.
    let count = unsafe { poll(polled.as_mut_ptr(), polled.len() as c_ulong, milliseconds) };
    if count < 0 {
        return Err(io::Error::last_os_error());
    }
    Ok(polled.iter().map(|one| one.found != 0).collect())
}

/// Locks the file for this process alone: whether no other has it locked.
pub fn try_lock(file: &File) -> io::Result<bool> {
    // SAFETY: the file is open.
    if unsafe { flock(file.as_raw_fd(), LOCK_EX | LOCK_NB) } == 0 {
        return Ok(true);
    }
    match io::Error::last_os_error() {
        error if error.kind() == io::ErrorKind::WouldBlock => Ok(false),
        error => Err(error),
    }
}

/// The seconds and nanoseconds of the clock that only goes forward.
pub fn monotonic_time() -> (u64, u64) {
    let mut time = Time { seconds: 0, nanoseconds: 0 };
    // SAFETY: the time is borrowed alone. Linux has this clock on every machine, so the call doesn't fail.
    unsafe { clock_gettime(CLOCK_MONOTONIC, &mut time) };
    (time.seconds.unsigned_abs(), time.nanoseconds.unsigned_abs())
}

// The layout that Linux has.
const _: () = {
    assert!(size_of::<Message>() == 56 && size_of::<Part>() == 16);
    assert!(size_of::<Polled>() == 8 && size_of::<Time>() == 16);
};
