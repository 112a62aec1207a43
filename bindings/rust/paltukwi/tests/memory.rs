//! Want of memory: each block that a link asks for in a call is refused in turn. It has a process of its own, for a heap of its
//! own, which comes in the place of the library's where that is linked from its archive; a shared library keeps its own.

mod common;

use common::wire::{
    device, handshake, message, seat, welcome, Arg, CONNECTION, FIRST_SEAT, RECEIVER, SENDER,
};
use paltukwi::{
    Capabilities, DeviceId, DeviceSetup, End, Input, KeymapFile, Link, Modifiers, NoMemory, PingId,
    Policy, Reason, Region, Request, SeatId, StartError, TellError,
};
use std::ffi::c_void;
use std::ptr::{null_mut, NonNull};
use std::sync::atomic::{AtomicUsize, Ordering::Relaxed};
use Arg::{Float, Long, Text, Word};

// ---- the heap

/// How many calls asked for memory, and which of them is refused.
static ASKED: AtomicUsize = AtomicUsize::new(0);
static REFUSED: AtomicUsize = AtomicUsize::new(0);

/// How many blocks there are.
static HERE: AtomicUsize = AtomicUsize::new(0);

extern "C" {
    fn malloc(size: usize) -> *mut c_void;
    fn realloc(at: *mut c_void, size: usize) -> *mut c_void;
    fn free(at: *mut c_void);
}

#[repr(C)]
struct Block {
    found: u64,
    at: *mut c_void,
}

/// Whether this call is refused.
fn is_refused() -> bool {
    ASKED.fetch_add(1, Relaxed) + 1 == REFUSED.load(Relaxed)
}

fn block_at(at: *mut c_void) -> Block {
    Block {
        found: u64::from(!at.is_null()),
        at: NonNull::new(at).unwrap_or(NonNull::dangling()).as_ptr(),
    }
}

#[no_mangle]
extern "C" fn rattle_alloc(size: usize, _align: usize) -> Block {
    if is_refused() {
        return block_at(null_mut());
    }
    HERE.fetch_add(1, Relaxed);
    // SAFETY: the call takes any size.
    block_at(unsafe { malloc(size.max(1)) })
}

#[no_mangle]
unsafe extern "C" fn rattle_realloc(at: *mut c_void, _: usize, size: usize, _: usize) -> Block {
    if is_refused() {
        return block_at(null_mut());
    }
    // SAFETY: the caller's: the block is one of this heap's.
    block_at(unsafe { realloc(at, size.max(1)) })
}

#[no_mangle]
unsafe extern "C" fn rattle_dealloc(at: *mut c_void) {
    HERE.fetch_sub(1, Relaxed);
    // SAFETY: the caller's: the block is one of this heap's.
    unsafe { free(at) };
}

// ---- the calls

const SEAT: SeatId = SeatId(FIRST_SEAT);
const ID: u64 = FIRST_SEAT + 1;
const DEVICE: DeviceId = DeviceId(ID);
const TEXT: &str = "xkb_keymap {};";

type Told = Result<(), TellError>;

fn adds_device(link: &mut Link) -> Told {
    let file = KeymapFile::xkb(TEXT).unwrap();
    let mapping_id = Some("left");
    let setup = DeviceSetup {
        name: Some("desk"),
        capabilities: Capabilities::from_bits(1 | 4 | 64),
        regions: &[Region { x: 1, y: 2, width: 3, height: 4, scale: 0.5, mapping_id }],
        keymap: Some(file.keymap()),
        ..DeviceSetup::default()
    };
    assert_eq!(link.add_device(SEAT, &setup)?, DEVICE);
    Ok(())
}

/// The calls of a link that tell a receiver something, one behind another.
const CALLS: [fn(&mut Link) -> Told; 14] = [
    |link| link.add_seat(Some("default"), Capabilities::ALL).map(|seat| assert_eq!(seat, SEAT)),
    adds_device,
    |link| link.resume(DEVICE),
    |link| link.modifiers(DEVICE, Modifiers { depressed: 1, locked: 2, latched: 4, group: 3 }),
    |link| link.start_emulating(DEVICE, 41),
    |link| link.send(DEVICE, &Input::TextUtf8 { text: "h\u{e9}".repeat(50) }),
    |link| link.send(DEVICE, &Input::PointerMotion { dx: 1.5, dy: -2.0 }),
    |link| link.frame(DEVICE, 123),
    |link| link.stop_emulating(DEVICE),
    |link| link.pause(DEVICE),
    |link| link.remove_device(DEVICE),
    |link| link.remove_seat(SEAT),
    |link| link.ping().map(|ping| assert_eq!(ping, PingId(ID + 4))),
    |link| link.disconnect(Reason::Mode, Some("bye")),
];

/// What the client is told by them, behind its handshake with the serial 7.
fn wanted() -> Vec<u8> {
    let mut bytes = seat(FIRST_SEAT, Some("default"), 255);
    bytes.extend(device(FIRST_SEAT, ID, Some("desk"), 1, 1 | 4 | 64));
    bytes.extend(message(ID, 12, &[Text("left")]));
    bytes.extend(message(ID, 4, &[Word(1), Word(2), Word(3), Word(4), Float(0.5)]));
    bytes.extend(message(ID + 2, 1, &[Word(1), Word(15)]));
    bytes.extend(message(ID, 6, &[]));
    bytes.extend(message(ID, 7, &[Word(8)]));
    bytes.extend(message(ID + 2, 3, &[Word(9), Word(1), Word(2), Word(4), Word(3)]));
    bytes.extend(message(ID, 9, &[Word(10), Word(41)]));
    bytes.extend(message(ID + 3, 2, &[Text(&"h\u{e9}".repeat(50))]));
    bytes.extend(message(ID + 1, 1, &[Float(1.5), Float(-2.0)]));
    bytes.extend(message(ID, 11, &[Word(11), Long(123)]));
    bytes.extend(message(ID, 10, &[Word(12)]));
    bytes.extend(message(ID, 8, &[Word(13)]));
    for (id, serial) in [ID + 1, ID + 2, ID + 3, ID, FIRST_SEAT].into_iter().zip(14..) {
        bytes.extend(message(id, 0, &[Word(serial)]));
    }
    bytes.extend(message(CONNECTION, 3, &[Long(ID + 4), Word(1)]));
    bytes.extend(message(CONNECTION, 0, &[Word(18), Word(2), Text("bye")]));
    bytes
}

/// A link behind its handshake.
fn shaken() -> Link {
    let mut link = Link::start(7).unwrap();
    link.feed(&handshake(RECEIVER, "probe"), &[], 0).unwrap();
    assert_eq!(link.unsent().bytes, welcome(7));
    link.sent(welcome(7).len()).unwrap();
    link
}

/// What a call answers where its block of that number is refused, and whether it asked for so many.
fn with_refused<T>(number: usize, call: impl FnOnce() -> T) -> (T, bool) {
    ASKED.store(0, Relaxed);
    REFUSED.store(number, Relaxed);
    let answer = call();
    REFUSED.store(0, Relaxed);
    (answer, ASKED.load(Relaxed) >= number)
}

/// Makes all calls, one of them with that block refused and then again. Whether it asked for so many.
fn plays(which: usize, number: usize) -> bool {
    let (mut link, mut refused) = (shaken(), false);
    for (place, call) in CALLS.into_iter().enumerate() {
        if place == which {
            let before = link.unsent().bytes.to_vec();
            let answer;
            (answer, refused) = with_refused(number, || call(&mut link));
            assert_eq!(answer, if refused { Err(TellError::NoMemory) } else { Ok(()) }, "{place}");
            if !refused {
                continue;
            }
            assert!(link.unsent().bytes == before && link.end().is_none(), "{place}");
        }
        assert_eq!(call(&mut link), Ok(()), "{place}");
    }
    assert!(link.unsent().bytes == wanted(), "{which} {number}: another reply");
    assert_eq!(link.unsent().handles.len(), 1);
    refused
}

/// The names of what is handed out, and how often memory runs out meanwhile.
fn taken(link: &mut Link) -> (Vec<&'static str>, usize) {
    let (mut names, mut failures) = (Vec::new(), 0);
    loop {
        match link.try_next_request() {
            Ok(Some(request)) => names.push(request.name()),
            Ok(None) => return (names, failures),
            Err(NoMemory) => failures += 1,
        }
    }
}

/// Takes what a sender asks of a strict link, which is ended by it, with that block refused: nothing is lost. Whether the link asked
/// for so many.
fn takes(number: usize) -> bool {
    let mut link = Link::start_with(7, Policy::Strict).unwrap();
    link.feed(&handshake(SENDER, "probe"), &[], 0).unwrap();
    assert_eq!(link.try_next_request(), Ok(Some(Request::Connected)));
    assert_eq!(link.add_seat(None, Capabilities::KEYBOARD), Ok(SEAT));
    let setup = DeviceSetup { capabilities: Capabilities::KEYBOARD, ..DeviceSetup::default() };
    assert_eq!(link.add_device(SEAT, &setup), Ok(DEVICE));
    link.resume(DEVICE).unwrap();
    let mut asked = message(ID, 1, &[Word(7), Word(1)]);
    for key in 0..20 {
        asked.extend(message(ID + 1, 1, &[Word(key), Word(1)]));
    }
    asked.extend(message(ID, 3, &[Word(7), Long(5)]));
    asked.extend(message(ID, 1, &[Word(7), Word(2)]));
    link.feed(&asked, &[], 0).unwrap();
    let ((names, failures), refused) = with_refused(number, || taken(&mut link));
    assert_eq!(failures, usize::from(refused), "{number}");
    let mut wanted = vec!["start_emulating"];
    wanted.extend(["key"; 20]);
    wanted.push("frame");
    assert_eq!(names, wanted, "{number}");
    assert_eq!(link.end(), Some(End::Told), "{number}");
    refused
}

#[test]
fn each_block_that_is_refused() {
    let (began, _) = with_refused(usize::MAX, || Link::start(7).is_ok());
    assert!(began);
    if ASKED.load(Relaxed) == 0 {
        println!("left out: want of memory, since the shared library has a heap of its own");
        return;
    }
    let mut started = 0;
    while let (answer, true) = with_refused(started + 1, || Link::start(7).err()) {
        assert_eq!(answer, Some(StartError::NoMemory));
        started += 1;
    }
    let refused: Vec<usize> = (0..CALLS.len())
        .map(|which| (1..).take_while(|number| plays(which, *number)).count())
        .collect();
    assert!(started > 0 && refused[..2].iter().all(|count| *count > 0), "{started} {refused:?}");
    assert!((1..).take_while(|number| takes(*number)).count() > 0);
    assert_eq!(HERE.load(Relaxed), 0);
    assert_eq!(TellError::NoMemory.to_string(), StartError::NoMemory.to_string());
    assert_eq!(NoMemory.to_string(), StartError::NoMemory.to_string());
}
