//! Worked sessions, as the files of `examples/sessions` tell them, and clients that play them.

#![allow(dead_code, missing_docs)]

pub mod wire;

use paltukwi::{now, Capabilities, Connection, End, Setup};
use std::fs;
use std::io::{self, ErrorKind, Read, Write};
use std::net::Shutdown;
use std::os::unix::net::UnixStream;
use std::path::{Path, PathBuf};
use std::time::Duration;

/// What the client sends and is sent, what it asks for, and how its session ends.
#[derive(Default)]
pub struct Worked {
    pub name: String,
    pub serial: u32,
    pub capabilities: u64,
    pub time: u64,
    pub client: Vec<u8>,
    pub server: Vec<u8>,
    pub requests: Vec<String>,
    pub end: u32,
    pub text: String,
}

/// The bytes of hexadecimal digits, two for each, with blanks between them.
pub fn bytes_of(digits: &str) -> Option<Vec<u8>> {
    let digits: String = digits.split(' ').collect();
    if !digits.is_ascii() || digits.len() % 2 != 0 {
        return None;
    }
    (0..digits.len())
        .step_by(2)
        .map(|at| u8::from_str_radix(&digits[at..at + 2], 16).ok())
        .collect()
}

impl Worked {
    /// The session that the text of a file tells; `None` where a line is none of it.
    pub fn of(name: &str, text: &str) -> Option<Worked> {
        let mut worked = Worked { name: name.to_string(), ..Worked::default() };
        for line in text.lines() {
            if !line.is_empty() && !line.starts_with('#') {
                worked.take_line(line)?;
            }
        }
        Some(worked)
    }

    fn take_line(&mut self, line: &str) -> Option<()> {
        let (word, rest) = line.split_once(' ')?;
        match word {
            "client" => self.client.extend(bytes_of(rest)?),
            "server" => self.server.extend(bytes_of(rest)?),
            "request" => self.requests.push(rest.to_string()),
            "serial" => self.serial = rest.parse().ok()?,
            "capabilities" => self.capabilities = rest.parse().ok()?,
            "time" => self.time = rest.parse().ok()?,
            "end" => self.end = rest.parse().ok()?,
            "text" => self.text = rest.to_string(),
            _ => return None,
        }
        Some(())
    }

    /// Whether the client is to send no more, so that the session ends.
    pub fn ends_with_input(&self) -> bool {
        self.end == 2 || self.end == 10
    }

    /// What its session begins with.
    pub fn setup(&self) -> Setup {
        Setup {
            serial: self.serial,
            capabilities: Capabilities::from_bits(self.capabilities),
            pieces: None,
        }
    }

    /// Whether the session ended as it should.
    pub fn is_end(&self, end: Option<&End>) -> bool {
        match end {
            Some(End::Disconnected) => self.end == 1,
            Some(End::EndOfInput) => self.end == 2,
            Some(End::Told) => self.end == 3,
            Some(End::Failed(error)) => error.number() == self.end && error.text() == self.text,
            None => false,
        }
    }
}

/// The folder of the worked sessions.
pub fn folder() -> PathBuf {
    let here = Path::new(env!("CARGO_MANIFEST_DIR"));
    here.join("../../../examples/sessions")
}

/// The worked session of that name.
pub fn worked(name: &str) -> Worked {
    let text =
        fs::read_to_string(folder().join(name)).unwrap_or_else(|error| panic!("{name}: {error}"));
    Worked::of(name, &text).unwrap_or_else(|| panic!("{name} is no worked session"))
}

/// All worked sessions.
pub fn all_worked() -> Vec<Worked> {
    let mut names: Vec<String> = fs::read_dir(folder())
        .expect("the folder of the worked sessions")
        .map(|entry| entry.unwrap().file_name().into_string().unwrap())
        .filter(|name| name != "README.md")
        .collect();
    names.sort();
    assert!(names.len() >= 7, "{names:?}");
    names.iter().map(|name| worked(name)).collect()
}

/// A client's socket, and the server's end of it.
pub fn pair(setup: &Setup) -> (UnixStream, Connection) {
    let (client, server) = UnixStream::pair().unwrap();
    client.set_nonblocking(true).unwrap();
    (client, Connection::open(server, setup).unwrap())
}

/// What there is to read now.
pub fn read_now(client: &mut UnixStream, most: usize) -> Vec<u8> {
    let mut bytes = vec![0; most];
    let count = match client.read(&mut bytes) {
        Ok(count) => count,
        Err(error) if error.kind() == ErrorKind::WouldBlock => 0,
        Err(error) => panic!("{error}"),
    };
    bytes.truncate(count);
    bytes
}

/// The server's turns until nothing more can be done: the requests, in lines.
pub fn turns(connection: &mut Connection) -> io::Result<Vec<String>> {
    let mut requests = Vec::new();
    for _ in 0..4 {
        connection.turn(now())?;
        while let Some(request) = connection.next_request() {
            requests.push(request.to_string());
        }
    }
    Ok(requests)
}

/// A client that connects to a path once something listens there.
pub fn connect(path: &Path) -> UnixStream {
    for _ in 0..1000 {
        if let Ok(stream) = UnixStream::connect(path) {
            stream.set_read_timeout(Some(Duration::from_secs(10))).unwrap();
            return stream;
        }
        std::thread::sleep(Duration::from_millis(10));
    }
    panic!("nothing listens on {}", path.display());
}

/// Plays the whole session to what listens on the path, and compares what is sent.
pub fn play(path: &Path, worked: &Worked) {
    let mut stream = connect(path);
    let (first, second) = worked.client.split_at(worked.client.len() / 2);
    stream.write_all(first).unwrap();
    stream.write_all(second).unwrap();
    if worked.ends_with_input() {
        stream.shutdown(Shutdown::Write).unwrap();
    }
    let mut got = Vec::new();
    stream.read_to_end(&mut got).unwrap();
    assert!(got == worked.server, "{}: other replies", worked.name);
}

/// A folder of this test's own, which is removed behind it.
pub struct Folder(pub PathBuf);

impl Folder {
    pub fn new(name: &str) -> Folder {
        let path = std::env::temp_dir().join(format!("paltukwi-{}-{name}", std::process::id()));
        fs::create_dir(&path).unwrap();
        Folder(path)
    }

    /// The names in it.
    pub fn names(&self) -> Vec<String> {
        let entries = fs::read_dir(&self.0).unwrap();
        let mut names: Vec<String> =
            entries.map(|entry| entry.unwrap().file_name().into_string().unwrap()).collect();
        names.sort();
        names
    }
}

impl Drop for Folder {
    fn drop(&mut self) {
        let _ = fs::remove_dir_all(&self.0);
    }
}
