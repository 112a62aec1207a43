//! A server that listens on a path, serves its clients side by side, and prints what they ask for.
//!
//!     server PATH SERIAL CAPABILITIES [CLIENTS]
//!
//! It ends when so many clients are done; without that number it goes on.

use paltukwi::{
    check_version, now, wait, Capabilities, Connection, End, Interest, Listener, Setup,
};
use std::error::Error;
use std::io::{self, Write};
use std::os::fd::{AsFd, BorrowedFd};
use std::process::ExitCode;
use std::time::Duration;

/// How many clients are served at a time; the others wait until one is done.
const MOST_CLIENTS: usize = 32;

/// How long a listener rests that couldn't accept a client.
const REST: Duration = Duration::from_secs(1);

struct Client {
    number: usize,
    connection: Connection,
}

impl Client {
    /// Prints a line of the client's.
    fn say(&self, line: &str) -> io::Result<()> {
        writeln!(io::stdout().lock(), "client {}: {line}", self.number)
    }

    /// Does what can be done, and prints each request. A compositor acts on it here. Whether the client stays.
    fn turn(&mut self) -> io::Result<bool> {
        let turned = self.connection.turn(now());
        while let Some(request) = self.connection.next_request() {
            self.say(&request.to_string())?;
        }
        match (turned, self.connection.end()) {
            (Err(error), _) => self.say(&format!("it can't be served: {error}"))?,
            (Ok(()), Some(end)) if self.connection.is_done() => self.say(&end_text(&end))?,
            (Ok(()), _) => return Ok(true),
        }
        Ok(false)
    }
}

/// The end, by its number in `reis.h`, and an error's text.
fn end_text(end: &End) -> String {
    match end {
        End::Disconnected => "end 1".to_string(),
        End::EndOfInput => "end 2".to_string(),
        End::Told => "end 3".to_string(),
        End::Failed(error) => format!("end {} {error}", error.number()),
    }
}

struct Server {
    listener: Listener,
    setup: Setup,
    clients: Vec<Client>,
    accepted: usize,
    rests: bool,
}

impl Server {
    /// Serves until so many clients are done.
    fn serve(&mut self, most: usize) -> Result<(), Box<dyn Error>> {
        while self.accepted < most || !self.clients.is_empty() {
            let accepts = self.accepts(most);
            let rest = self.rests.then_some(REST);
            self.rests = false;
            let ready = wait(&self.sockets(accepts), rest)?;
            self.turn_clients(&ready[1..])?;
            if ready[0] {
                self.accept()?;
            }
        }
        Ok(())
    }

    /// Whether one more client is served now.
    fn accepts(&self, most: usize) -> bool {
        !self.rests && self.accepted < most && self.clients.len() < MOST_CLIENTS
    }

    /// The listener, and the clients behind it.
    fn sockets(&self, accepts: bool) -> Vec<(BorrowedFd<'_>, Interest)> {
        let accepting = if accepts { Interest::Read } else { Interest::Nothing };
        let mut sockets = vec![(self.listener.as_fd(), accepting)];
        for client in &self.clients {
            sockets.push((client.connection.as_fd(), client.connection.interest()));
        }
        sockets
    }

    fn turn_clients(&mut self, ready: &[bool]) -> io::Result<()> {
        let mut stay = Vec::new();
        for (mut client, ready) in self.clients.drain(..).zip(ready) {
            if !ready || client.turn()? {
                stay.push(client);
            }
        }
        self.clients = stay;
        Ok(())
    }

    /// Accepts a client. Where there is no room for one, it is tried again later.
    fn accept(&mut self) -> Result<(), Box<dyn Error>> {
        match self.listener.accept() {
            Ok(Some(stream)) => {
                self.accepted += 1;
                let connection = Connection::open(stream, &self.setup)?;
                self.clients.push(Client { number: self.accepted, connection });
            }
            Ok(None) => {}
            Err(error) => {
                eprintln!("no client: {error}");
                self.rests = true;
            }
        }
        Ok(())
    }
}

/// The path, the setup and the number of clients that the words after the program's name say.
fn words() -> Option<(String, Setup, usize)> {
    let words: Vec<String> = std::env::args().skip(1).collect();
    if !(3..=4).contains(&words.len()) {
        return None;
    }
    let setup = Setup {
        serial: words[1].parse().ok()?,
        capabilities: Capabilities::from_bits(words[2].parse().ok()?),
        pieces: None,
    };
    let clients = match words.get(3) {
        Some(count) => count.parse().ok()?,
        None => usize::MAX,
    };
    Some((words[0].clone(), setup, clients))
}

fn run(path: &str, setup: Setup, clients: usize) -> Result<(), Box<dyn Error>> {
    check_version()?;
    let listener = Listener::bind(path)?;
    let mut server = Server { listener, setup, clients: Vec::new(), accepted: 0, rests: false };
    server.serve(clients)
}

fn main() -> ExitCode {
    let Some((path, setup, clients)) = words() else {
        eprintln!("usage: server PATH SERIAL CAPABILITIES [CLIENTS]");
        return ExitCode::from(2);
    };
    match run(&path, setup, clients) {
        Ok(()) => ExitCode::SUCCESS,
        Err(error) => {
            eprintln!("server: {error}");
            ExitCode::FAILURE
        }
    }
}
