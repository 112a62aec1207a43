//! A connection over a socket pair.

mod common;

use common::{all_worked, pair, read_now, turns, worked, Worked};
use paltukwi::{now, Connection, End, ErrorKind, Interest};
use std::io::{self, IoSlice, Read, Write};
use std::net::Shutdown;
use std::os::unix::net::UnixStream;

/// A worked session that is played: the client's end of the pair, and the server's.
struct Play<'a> {
    worked: &'a Worked,
    cut: usize,
    most: usize,
    client: UnixStream,
    connection: Connection,
    sent: usize,
    closed: bool,
    got: Vec<u8>,
    requests: Vec<String>,
}

impl<'a> Play<'a> {
    /// Begins it: so many bytes are sent at a time, and so many replies taken.
    fn begin(worked: &'a Worked, cut: usize, most: usize) -> Play<'a> {
        let (client, connection) = pair(&worked.setup());
        Play {
            worked,
            cut,
            most,
            client,
            connection,
            sent: 0,
            closed: false,
            got: Vec::new(),
            requests: Vec::new(),
        }
    }

    /// The client sends the next bytes; behind the last it says that no more come, where the session is to end so.
    fn send_some(&mut self) {
        let left = &self.worked.client[self.sent..];
        let count = self.cut.min(left.len());
        if count > 0 {
            self.client.write_all(&left[..count]).unwrap();
            self.sent += count;
        } else if !self.closed && self.worked.ends_with_input() {
            self.client.shutdown(Shutdown::Write).unwrap();
            self.closed = true;
        }
    }

    /// One turn of both ends. Whether there is more to do.
    fn turn(&mut self) -> bool {
        self.send_some();
        self.connection.turn(self.worked.time).unwrap();
        while let Some(request) = self.connection.next_request() {
            self.requests.push(request.to_string());
        }
        let taken = read_now(&mut self.client, self.most);
        self.got.extend(&taken);
        assert!(self.worked.server.starts_with(&self.got), "another reply");
        !taken.is_empty() || !self.connection.is_done()
    }

    /// What it came to, all of it; then it is closed.
    fn finish(mut self) {
        let name = &self.worked.name;
        assert!(self.got == self.worked.server, "{name}: replies are missing");
        assert_eq!(self.requests, self.worked.requests, "{name}");
        let end = self.connection.end();
        assert!(self.worked.is_end(end.as_ref()), "{name}: {end:?}");
        assert_eq!(self.connection.interest(), Interest::Nothing);
        drop(self.connection);
        assert_eq!(self.client.read(&mut [0]).unwrap(), 0, "{name}: more behind the end");
    }
}

#[test]
fn worked_sessions_in_odd_cuts() {
    for worked in all_worked() {
        for cut in [1, 3, 7, 16, 29, 41, 143, 10_000] {
            for most in [1, 5, 17, 10_000] {
                let mut play = Play::begin(&worked, cut, most);
                while play.turn() {}
                play.finish();
            }
        }
    }
}

#[test]
fn two_sessions_at_once() {
    let sessions = all_worked();
    for one in &sessions {
        for other in &sessions {
            let (mut first, mut second) = (Play::begin(one, 3, 5), Play::begin(other, 7, 2));
            while first.turn() | second.turn() {}
            first.finish();
            second.finish();
        }
    }
}

#[test]
fn a_client_that_dies_before_the_connection() {
    let leaves = worked("leaves");
    for count in [0, 1, 17, 41] {
        let (mut client, mut connection) = pair(&leaves.setup());
        client.write_all(&leaves.client[..count]).unwrap();
        client.shutdown(Shutdown::Write).unwrap();
        turns(&mut connection).unwrap();
        let Some(End::Failed(error)) = connection.end() else {
            panic!("{:?}", connection.end());
        };
        assert_eq!(error.kind(), ErrorKind::UnexpectedEof);
        assert!(connection.is_done());
        assert_eq!(read_now(&mut client, 1000), leaves.server[..20]);
    }
}

#[test]
fn a_client_that_dies_in_a_message_of_its_connection() {
    let leaves = worked("leaves");
    let (mut client, mut connection) = pair(&leaves.setup());
    client.write_all(&leaves.client[..leaves.client.len() - 1]).unwrap();
    drop(client);
    let failed = turns(&mut connection);
    // The replies can't be written any more: no signal comes.
    assert_eq!(failed.unwrap_err().kind(), io::ErrorKind::BrokenPipe);
    assert_eq!(connection.next_request(), None);
}

#[test]
fn requests_of_a_client_that_has_gone_are_handed_out() {
    let leaves = worked("leaves");
    let (mut client, mut connection) = pair(&leaves.setup());
    connection.turn(0).unwrap();
    client.write_all(&leaves.client).unwrap();
    drop(client);
    assert!(connection.turn(0).is_err());
    assert_eq!(connection.end(), Some(End::Disconnected));
    assert_eq!(connection.next_request().unwrap().name(), "disconnect");
    assert!(!connection.is_done(), "all is written");
}

#[test]
fn nothing_to_do_is_no_error() {
    let leaves = worked("leaves");
    let (mut client, mut connection) = pair(&leaves.setup());
    assert_eq!(connection.interest(), Interest::Write);
    for _ in 0..3 {
        connection.turn(now()).unwrap();
        assert_eq!(connection.interest(), Interest::Read);
        assert_eq!((connection.end(), connection.client()), (None, None));
    }
    client.write_all(&leaves.client).unwrap();
    for _ in 0..3 {
        connection.turn(now()).unwrap();
        assert!(connection.is_done());
    }
}

#[test]
fn a_client_that_never_reads() {
    let refused = worked("refused");
    let (mut client, mut connection) = pair(&refused.setup());
    // Up to the end of the handshake, and then messages to an object that isn't there: each is answered by more than it has.
    let shaken = refused.client.len() - 24 - 2 * 16;
    client.write_all(&refused.client[..shaken]).unwrap();
    turns(&mut connection).unwrap();
    let message = &refused.client[shaken..shaken + 16];
    let parts = vec![IoSlice::new(message); 64];
    let mut idle = 0;
    for _ in 0..100_000 {
        let blocked = client.write_vectored(&parts).is_err();
        connection.turn(now()).unwrap();
        let waits = connection.interest() == Interest::Write;
        idle = if blocked && waits { idle + 1 } else { 0 };
        if idle == 100 {
            break;
        }
    }
    assert_eq!(idle, 100, "{:?}", connection.end());
    assert_eq!(connection.end(), None);
    // It is served on once it reads.
    let mut count = 0;
    while connection.interest() == Interest::Write {
        count += read_now(&mut client, 1 << 20).len();
        connection.turn(now()).unwrap();
    }
    assert!(count > 64 * 28);
}
