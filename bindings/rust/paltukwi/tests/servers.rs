//! The example servers, each in a process of its own, with clients that play worked sessions on their paths.

mod common;

use common::wire::{
    device, handshake, message, seat, welcome, Arg, CONNECTION, FIRST_SEAT, SENDER,
};
use common::{connect, play, worked, Folder};
use std::env;
use std::fs;
use std::io::{BufRead, BufReader, Read, Write};
use std::os::unix::net::{UnixListener, UnixStream};
use std::path::{Path, PathBuf};
use std::process::{Child, Command, Output, Stdio};
use Arg::{Float, Long, Text, Word};

/// The example of that name, as cargo built it beside this test.
fn example(name: &str) -> Command {
    let test = env::current_exe().unwrap();
    let built: PathBuf = test.parent().and_then(Path::parent).unwrap().into();
    let mut command = Command::new(built.join("examples").join(name));
    command.stdout(Stdio::piped()).stderr(Stdio::piped());
    command
}

/// A server that is ended with the test.
struct Running(Child);

impl Running {
    fn start(mut command: Command) -> Running {
        Running(command.spawn().unwrap())
    }

    /// Waits for its end: what it printed, without the times, which are its own.
    fn finish(mut self) -> Vec<String> {
        let mut printed = String::new();
        self.0.stdout.take().unwrap().read_to_string(&mut printed).unwrap();
        assert!(self.0.wait().unwrap().success(), "{printed}");
        printed.lines().map(without_time).collect()
    }
}

impl Drop for Running {
    fn drop(&mut self) {
        let _ = self.0.kill();
        let _ = self.0.wait();
    }
}

fn without_time(line: &str) -> String {
    let words = line.split(' ').filter(|word| !word.starts_with("time="));
    words.collect::<Vec<_>>().join(" ")
}

/// What the server is to print of clients that play these sessions.
fn wanted(names: &[&str]) -> Vec<String> {
    let mut lines = Vec::new();
    for (number, name) in names.iter().enumerate() {
        let (number, worked) = (number + 1, worked(name));
        for request in &worked.requests {
            lines.push(without_time(&format!("client {number}: {request}")));
        }
        let end = format!("client {number}: end {} {}", worked.end, worked.text);
        lines.push(end.trim_end().to_string());
    }
    lines
}

fn serves(serial: &str, capabilities: &str, names: &[&str]) {
    let folder = Folder::new(&format!("server-{}", names[0]));
    let path = folder.0.join("socket");
    let mut server = example("server");
    server.arg(&path).args([serial, capabilities, &names.len().to_string()]);
    let server = Running::start(server);
    for name in names {
        play(&path, &worked(name));
    }
    assert_eq!(server.finish(), wanted(names));
    assert!(folder.names().is_empty());
}

#[test]
fn the_server_serves_one_after_another() {
    serves("5", "32", &["leaves", "buttons", "refused", "unreadable"]);
    serves("1", "127", &["whole", "inputs"]);
    serves("5", "128", &["gestures"]);
}

#[test]
fn the_server_serves_four_at_once() {
    let folder = Folder::new("at-once");
    let path = folder.0.join("socket");
    let mut server = example("server");
    server.arg(&path).args(["1", "127", "4"]);
    let server = Running::start(server);
    std::thread::scope(|scope| {
        for _ in 0..4 {
            scope.spawn(|| play(&path, &worked("whole")));
        }
    });
    let (mut printed, mut wanted) = (server.finish(), wanted(&["whole"; 4]));
    printed.sort();
    wanted.sort();
    assert_eq!(printed, wanted);
}

/// One client connects and says nothing, and one breaks off: the next is served.
#[test]
fn the_server_serves_beside_silent_clients() {
    let folder = Folder::new("silent");
    let path = folder.0.join("socket");
    let mut server = example("server");
    server.arg(&path).args(["1", "127", "3"]);
    let server = Running::start(server);
    let silent = connect(&path);
    let mut breaks_off = connect(&path);
    let whole = worked("whole");
    breaks_off.write_all(&whole.client[..100]).unwrap();
    drop(breaks_off);
    play(&path, &whole);
    drop(silent);
    let printed = server.finish();
    assert!(printed.contains(&"client 3: end 1".to_string()), "{printed:?}");
}

/// The server's status and what it says, where it doesn't begin.
fn refused(mut command: Command) -> (Option<i32>, String) {
    let Output { status, stderr, .. } = command.output().unwrap();
    (status.code(), String::from_utf8(stderr).unwrap())
}

#[test]
fn the_server_says_what_is_wrong() {
    let folder = Folder::new("wrong");
    let taken = folder.0.join("taken");
    let listener = UnixListener::bind(&taken).unwrap();
    let mut server = example("server");
    server.arg(&taken).args(["1", "127", "1"]);
    let (status, text) = refused(server);
    assert_eq!(status, Some(1));
    assert!(text.contains(taken.to_str().unwrap()) && text.contains("in use"), "{text}");
    drop(listener);

    let (status, text) = refused(example("server"));
    assert_eq!(status, Some(2));
    assert!(text.starts_with("usage: "), "{text}");
}

/// The smallest server, until it says where it listens.
fn minimal(folder: &Path) -> (Running, BufReader<std::process::ChildStdout>, PathBuf) {
    let mut server = example("minimal");
    server.env("XDG_RUNTIME_DIR", folder);
    let mut server = Running::start(server);
    let mut printed = BufReader::new(server.0.stdout.take().unwrap());
    let mut line = String::new();
    printed.read_line(&mut line).unwrap();
    let path = line.trim_end().strip_prefix("listens on ").unwrap().into();
    (server, printed, path)
}

#[test]
fn the_smallest_server_serves() {
    let folder = Folder::new("minimal");
    let (server, printed, path) = minimal(&folder.0);
    assert_eq!(path, folder.0.join("eis-0"));
    let (_second, _, second_path) = minimal(&folder.0);
    assert_eq!(second_path, folder.0.join("eis-1"));
    let whole = worked("whole");
    play(&path, &whole);
    let mut lines = printed.lines();
    for request in &whole.requests {
        assert_eq!(&lines.next().unwrap().unwrap(), request);
    }
    assert_eq!(lines.next().unwrap().unwrap(), "a client leaves: the client disconnected");

    // It is killed, and leaves its path behind; the next one takes it over.
    drop(server);
    assert!(fs::symlink_metadata(&path).is_ok());
    let (_third, _, third_path) = minimal(&folder.0);
    assert_eq!(third_path, path);
    play(&path, &whole);
}

#[test]
fn the_smallest_server_wants_a_runtime_folder() {
    let mut server = example("minimal");
    server.env_remove("XDG_RUNTIME_DIR");
    let (status, text) = refused(server);
    assert_eq!(status, Some(1));
    assert_eq!(text, "minimal: XDG_RUNTIME_DIR isn't set to an absolute path\n");

    let mut server = example("minimal");
    server.env("XDG_RUNTIME_DIR", ".");
    let (status, text) = refused(server);
    assert_eq!(status, Some(1));
    assert_eq!(text, "minimal: XDG_RUNTIME_DIR isn't set to an absolute path\n");

    let folder = Folder::new("nowhere");
    let mut server = example("minimal");
    server.env("XDG_RUNTIME_DIR", folder.0.join("nowhere"));
    let (status, text) = refused(server);
    assert_eq!(status, Some(1));
    assert!(text.contains("eis-0.lock"), "{text}");
    assert!(folder.names().is_empty());
}

// ---- the compositor

/// A client of the compositor, and the last serial that it was told.
struct Probe {
    stream: UnixStream,
    serial: u32,
}

const POINTER: u64 = FIRST_SEAT + 1;
const ABSOLUTE: u64 = FIRST_SEAT + 5;
const KEYBOARD: u64 = FIRST_SEAT + 7;
const OFFERED: u64 = 1 | 2 | 4 | 16 | 32;

impl Probe {
    /// Shakes hands, and hears of its seat.
    fn begin(path: &Path) -> Probe {
        let mut probe = Probe { stream: connect(path), serial: 1 };
        probe.stream.write_all(&handshake(SENDER, "probe")).unwrap();
        probe.hears(&welcome(1));
        probe.hears(&seat(FIRST_SEAT, Some("default"), OFFERED));
        probe
    }

    /// What comes next is this.
    fn hears(&mut self, wanted: &[u8]) {
        let mut got = vec![0; wanted.len()];
        self.stream.read_exact(&mut got).unwrap();
        assert!(got == wanted, "another message");
    }

    fn next(&mut self) -> Arg<'static> {
        self.serial += 1;
        Word(self.serial)
    }

    /// Binds all, and hears of three devices. The size of the keymap isn't known.
    fn binds(&mut self) {
        self.stream.write_all(&message(FIRST_SEAT, 1, &[Long(OFFERED)])).unwrap();
        self.hears(&device(FIRST_SEAT, POINTER, Some("pointer"), 1, 1 | 16 | 32));
        self.hears_back(POINTER);
        self.hears(&device(FIRST_SEAT, ABSOLUTE, Some("absolute pointer"), 1, 2));
        for (x, width, height, scale, id) in
            [(0, 1920, 1080, 1.0, "left-screen"), (1920, 2560, 1440, 1.25, "right-screen")]
        {
            self.hears(&message(ABSOLUTE, 12, &[Text(id)]));
            let region = [Word(x), Word(0), Word(width), Word(height), Float(scale)];
            self.hears(&message(ABSOLUTE, 4, &region));
        }
        self.hears_back(ABSOLUTE);
        self.hears(&device(FIRST_SEAT, KEYBOARD, Some("keyboard"), 1, 4));
        let mut keymap = [0; 24];
        self.stream.read_exact(&mut keymap).unwrap();
        assert_eq!(keymap[..20], message(KEYBOARD + 1, 1, &[Word(1), Word(0)])[..20]);
        self.hears_back(KEYBOARD);
    }

    fn hears_back(&mut self, device: u64) {
        let resumed = [self.next()];
        self.hears(&[message(device, 6, &[]), message(device, 7, &resumed)].concat());
    }

    /// All devices are paused (8) or resumed (7).
    fn hears_of_all(&mut self, opcode: u32) {
        for device in [POINTER, ABSOLUTE, KEYBOARD] {
            let serial = [self.next()];
            self.hears(&message(device, opcode, &serial));
        }
    }

    /// The devices and the seat are taken away, and the connection ends for this reason.
    fn hears_the_end(&mut self, ids: &[u64], reason: u32, text: &str) {
        for id in ids {
            let serial = [self.next()];
            self.hears(&message(*id, 0, &serial));
        }
        let why = [Word(self.serial), Word(reason), Text(text)];
        self.hears(&message(CONNECTION, 0, &why));
        assert_eq!(self.stream.read(&mut [0]).unwrap(), 0, "more behind the end");
    }
}

/// All objects behind the connection, in the order in which they are taken away.
fn all_ids() -> Vec<u64> {
    let pointer = (POINTER + 1..ABSOLUTE).chain([POINTER]);
    pointer.chain([ABSOLUTE + 1, ABSOLUTE, KEYBOARD + 1, KEYBOARD, FIRST_SEAT]).collect()
}

#[test]
fn the_compositor_pauses_resumes_and_ends() {
    let folder = Folder::new("compositor");
    let path = folder.0.join("socket");
    let mut compositor = example("compositor");
    compositor.arg(&path).stdin(Stdio::piped());
    let mut compositor = Running::start(compositor);
    let mut told = compositor.0.stdin.take().unwrap();
    let (mut first, mut second) = (Probe::begin(&path), Probe::begin(&path));
    first.binds();
    second.binds();
    for (line, opcode) in [("pause\n", 8), ("resume\n", 7)] {
        told.write_all(line.as_bytes()).unwrap();
        first.hears_of_all(opcode);
        second.hears_of_all(opcode);
    }
    told.write_all(b"en").unwrap();
    told.write_all(b"d\n").unwrap();
    for probe in [&mut first, &mut second] {
        probe.hears_the_end(&all_ids(), 0, "the compositor ends");
    }
    let printed = compositor.finish();
    for line in ["client 2: Sender", "client 2: bind seat=ff00000000000001 capabilities=55"] {
        assert!(printed.iter().any(|printed| printed == line), "{printed:?}");
    }
    assert_eq!(
        printed[4..],
        ["client 1: it is told of the end", "client 2: it is told of the end"]
    );
    assert!(folder.names().is_empty());
}

/// One client sends input and leaves, one breaks the protocol, and one sends input without a start: these two are told so.
#[test]
fn the_compositor_serves_who_leaves_and_who_is_wrong() {
    let folder = Folder::new("compositor-serves");
    let path = folder.0.join("socket");
    let mut compositor = example("compositor");
    compositor.arg(&path).arg("3").stdin(Stdio::null());
    let compositor = Running::start(compositor);
    let mut probe = Probe::begin(&path);
    probe.binds();
    let mut key = message(KEYBOARD + 1, 1, &[Word(30), Word(1)]);
    key.extend(message(KEYBOARD, 3, &[Word(4), Long(5000)]));
    probe.stream.write_all(&message(KEYBOARD, 1, &[Word(4), Word(1)])).unwrap();
    probe.stream.write_all(&key).unwrap();
    probe.stream.write_all(&message(POINTER, 0, &[])).unwrap();
    for id in (POINTER + 1..ABSOLUTE).chain([POINTER]) {
        let serial = [probe.next()];
        probe.hears(&message(id, 0, &serial));
    }
    probe.stream.write_all(&message(CONNECTION, 1, &[])).unwrap();
    assert_eq!(probe.stream.read(&mut [0]).unwrap(), 0);
    let mut wrong = Probe::begin(&path);
    wrong.stream.write_all(&message(FIRST_SEAT, 99, &[])).unwrap();
    wrong.hears_the_end(&[FIRST_SEAT], 3, "parse_invalid_opcode");
    let mut hasty = Probe::begin(&path);
    hasty.binds();
    hasty.stream.write_all(&key).unwrap();
    hasty.hears_the_end(&all_ids(), 3, "input without start_emulating");
    let wanted = [
        "client 1: Sender",
        "client 1: bind seat=ff00000000000001 capabilities=55",
        "client 1: start_emulating device=ff00000000000008 serial=4 sequence=1",
        "client 1: key device=ff00000000000008 key=30 state=press",
        "client 1: frame device=ff00000000000008 serial=4",
        "client 1: device_closed device=ff00000000000002",
        "client 1: disconnect",
        "client 1: the client disconnected",
        "client 2: Sender",
        "client 2: parse_invalid_opcode",
        "client 3: Sender",
        "client 3: bind seat=ff00000000000001 capabilities=55",
        "client 3: the client was told so",
    ];
    assert_eq!(compositor.finish(), wanted);
    assert!(folder.names().is_empty());
}

#[test]
fn the_compositor_says_what_is_wrong() {
    let folder = Folder::new("compositor-wrong");
    let mut compositor = example("compositor");
    compositor.arg(folder.0.join("nowhere").join("socket"));
    let (status, text) = refused(compositor);
    assert_eq!(status, Some(1));
    assert!(text.starts_with("compositor: ") && text.contains("nowhere"), "{text}");
    for words in [&[][..], &["one", "two"], &["one", "2", "three"]] {
        let mut compositor = example("compositor");
        compositor.args(words);
        let (status, text) = refused(compositor);
        assert_eq!((status, text.as_str()), (Some(2), "usage: compositor PATH [CLIENTS]\n"));
    }
}
