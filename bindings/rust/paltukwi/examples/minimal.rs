//! The smallest server: it listens in `XDG_RUNTIME_DIR`, serves its clients side by side, and prints what they ask for.

use paltukwi::{check_version, now, wait, Connection, Interest, Listener, Setup};
use std::error::Error;
use std::os::fd::AsFd;

/// Does what can be done for a client: whether it stays.
fn serve(client: &mut Connection) -> bool {
    let turned = client.turn(now());
    while let Some(request) = client.next_request() {
        println!("{request}"); // a compositor acts on it here
    }
    match (turned, client.end()) {
        (Err(error), _) => println!("a client can't be served: {error}"),
        (Ok(()), Some(end)) if client.is_done() => println!("a client leaves: {end}"),
        (Ok(()), _) => return true,
    }
    false
}

fn run() -> Result<(), Box<dyn Error>> {
    check_version()?;
    let listener = Listener::bind_auto()?;
    println!("listens on {}", listener.path().display());
    let mut clients: Vec<Connection> = Vec::new();
    loop {
        let accepting = if clients.len() < 32 { Interest::Read } else { Interest::Nothing };
        let mut sockets = vec![(listener.as_fd(), accepting)];
        sockets.extend(clients.iter().map(|client| (client.as_fd(), client.interest())));
        let ready = wait(&sockets, None)?;
        let mut ready_clients = ready[1..].iter();
        clients.retain_mut(|client| ready_clients.next() != Some(&true) || serve(client));
        if ready[0] {
            if let Some(stream) = listener.accept()? {
                clients.push(Connection::open(stream, &Setup::default())?);
            }
        }
    }
}

fn main() {
    if let Err(error) = run() {
        eprintln!("minimal: {error}");
        std::process::exit(1);
    }
}
