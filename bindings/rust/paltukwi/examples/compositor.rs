//! A compositor, as strict as libeis: it listens on a path, gives each client a seat and the devices that it binds, and prints
//! what comes from them.
//!
//!     compositor PATH [CLIENTS]
//!
//! It obeys lines on its standard input: `pause` and `resume`, which are for all devices, and `end`, by which it tells the
//! clients that it ends. It ends too when so many clients are done.

use paltukwi::{
    check_version, now, wait, Capabilities, DeviceId, DeviceSetup, End, Interest, KeymapFile,
    Listener, Peer, Policy, Reason, Region, Request, SeatId, TellError,
};
use std::error::Error;
use std::fs::File;
use std::io::{self, Read};
use std::os::fd::{AsFd, BorrowedFd};
use std::process::ExitCode;

/// How many clients are served at a time; the others wait until one is done.
const MOST_CLIENTS: usize = 8;

/// The devices of a seat.
const DEVICES: usize = 3;
const NAMES: [&str; DEVICES] = ["pointer", "absolute pointer", "keyboard"];

/// Two screens, side by side.
const SCREENS: [Region<'_>; 2] = [
    Region { x: 0, y: 0, width: 1920, height: 1080, scale: 1.0, mapping_id: Some("left-screen") },
    Region {
        x: 1920,
        y: 0,
        width: 2560,
        height: 1440,
        scale: 1.25,
        mapping_id: Some("right-screen"),
    },
];

/// One key.
const KEYMAP: &str = r#"xkb_keymap {
xkb_keycodes "one" { minimum = 8; maximum = 255; <AC01> = 38; };
xkb_types "one" { virtual_modifiers NumLock; type "ONE_LEVEL" { modifiers = none; level_name[1] = "Any"; }; };
xkb_compatibility "one" { interpret.useModMapMods = AnyLevel; };
xkb_symbols "one" { key <AC01> { type = "ONE_LEVEL", symbols[1] = [ a ] }; };
};
"#;

/// What each device of a seat is capable of.
fn given() -> [Capabilities; DEVICES] {
    let pointer = Capabilities::POINTER | Capabilities::BUTTON | Capabilities::SCROLL;
    [pointer, Capabilities::POINTER_ABSOLUTE, Capabilities::KEYBOARD]
}

// ---- a client

struct Client {
    number: usize,
    peer: Peer,
    devices: [Option<DeviceId>; DEVICES],
}

/// What all clients have in common.
struct Desk {
    keymap: KeymapFile,
    paused: bool,
}

impl Client {
    /// Gives a seat to a client that is known by now.
    fn greet(&mut self) -> Result<(), TellError> {
        if let Some(client) = self.peer.client() {
            println!("client {}: {:?}", self.number, client.context_type);
        }
        let all = given().into_iter().fold(Capabilities::NONE, |all, some| all | some);
        self.peer.add_seat(Some("default"), all).map(drop)
    }

    /// Acts on what the client asks for.
    fn act(&mut self, desk: &Desk) {
        while let Some(request) = self.peer.next_request() {
            if request != Request::Connected {
                println!("client {}: {request}", self.number);
            }
            let acted = match request {
                Request::Connected => self.greet(),
                Request::Bind { seat, capabilities } => self.bind(desk, seat, capabilities),
                Request::DeviceClosed { device, .. } => self.forget(device),
                _ => Ok(()), // input: a compositor acts on it here
            };
            self.note(acted);
        }
    }

    /// What a call came to. A client that has left meanwhile, or has closed the device, isn't told; of anything else it is told
    /// that its connection ends by it.
    fn note(&mut self, answer: Result<(), TellError>) {
        match answer {
            Ok(()) | Err(TellError::Over | TellError::Gone) => {}
            Err(error) => {
                println!("client {}: {error}", self.number);
                let _ = self.peer.disconnect(Reason::Error, Some(&error.to_string()));
            }
        }
    }

    /// A client that binds other capabilities than before gets its devices anew.
    fn bind(&mut self, desk: &Desk, seat: SeatId, bound: Capabilities) -> Result<(), TellError> {
        for (which, given) in given().into_iter().enumerate() {
            if let Some(device) = self.devices[which].take() {
                self.peer.remove_device(device)?;
            }
            if !(given & bound).is_empty() {
                self.devices[which] = Some(self.add(desk, seat, which, given & bound)?);
            }
        }
        Ok(())
    }

    fn add(
        &mut self,
        desk: &Desk,
        seat: SeatId,
        which: usize,
        capabilities: Capabilities,
    ) -> Result<DeviceId, TellError> {
        let has = |one| capabilities.contains(one);
        let setup = DeviceSetup {
            name: Some(NAMES[which]),
            capabilities,
            regions: if has(Capabilities::POINTER_ABSOLUTE) { &SCREENS } else { &[] },
            keymap: has(Capabilities::KEYBOARD).then(|| desk.keymap.keymap()),
            ..DeviceSetup::default()
        };
        let device = self.peer.add_device(seat, &setup)?;
        if !desk.paused {
            self.peer.resume(device)?;
        }
        Ok(device)
    }

    fn forget(&mut self, closed: DeviceId) -> Result<(), TellError> {
        for device in &mut self.devices {
            device.take_if(|device| *device == closed);
        }
        self.peer.remove_device(closed)
    }

    fn pause_or_resume(&mut self, paused: bool) {
        for device in self.devices.into_iter().flatten() {
            let told = if paused { self.peer.pause(device) } else { self.peer.resume(device) };
            self.note(told);
        }
    }

    /// Does what can be done, and tells a client that broke the protocol why it is over. Whether the client stays.
    fn turn(&mut self, desk: &Desk) -> bool {
        let turned = self.peer.turn(now());
        self.act(desk);
        if let Some(End::Failed(error)) = self.peer.end() {
            // Only once: then the call is refused.
            let _ = self.peer.disconnect(Reason::Protocol, Some(&error.to_string()));
        }
        match (turned, self.peer.end()) {
            (Err(error), _) => println!("client {}: it can't be served: {error}", self.number),
            (Ok(()), Some(end)) if self.peer.is_done() => println!("client {}: {end}", self.number),
            (Ok(()), _) => return true,
        }
        false
    }

    /// Tells it that the compositor ends.
    fn leave(mut self) {
        let told = self.peer.disconnect(Reason::Disconnected, Some("the compositor ends"));
        let turned = self.peer.turn(now());
        if told.is_ok() && turned.is_ok() {
            println!("client {}: it is told of the end", self.number);
        }
    }
}

// ---- the standard input

struct Commands {
    input: File,
    text: String,
    interest: Interest,
}

impl Commands {
    fn new() -> io::Result<Commands> {
        let input = File::from(io::stdin().as_fd().try_clone_to_owned()?);
        Ok(Commands { input, text: String::new(), interest: Interest::Read })
    }

    /// The whole lines that came. Behind the end of the input there are none.
    fn lines(&mut self) -> io::Result<Vec<String>> {
        let mut bytes = [0; 256];
        let count = self.input.read(&mut bytes)?;
        if count == 0 {
            self.interest = Interest::Nothing;
        }
        self.text.push_str(&String::from_utf8_lossy(&bytes[..count]));
        let whole = self.text.rfind('\n').map_or(0, |last| last + 1);
        Ok(self.text.drain(..whole).collect::<String>().lines().map(String::from).collect())
    }
}

// ---- the loop

struct Compositor {
    listener: Listener,
    commands: Commands,
    desk: Desk,
    clients: Vec<Client>,
    accepted: usize,
    ends: bool,
}

impl Compositor {
    /// Serves until so many clients are done, or until it is told to end.
    fn serve(&mut self, most: usize) -> Result<(), Box<dyn Error>> {
        while !self.ends && (self.accepted < most || !self.clients.is_empty()) {
            let ready = wait(&self.sockets(most), None)?;
            let (desk, mut ready_clients) = (&self.desk, ready[2..].iter());
            self.clients
                .retain_mut(|client| ready_clients.next() != Some(&true) || client.turn(desk));
            if ready[1] {
                self.accept()?;
            }
            if ready[0] {
                self.obey()?;
            }
        }
        self.clients.drain(..).for_each(Client::leave);
        Ok(())
    }

    /// The standard input, the listener, and the clients behind them.
    fn sockets(&self, most: usize) -> Vec<(BorrowedFd<'_>, Interest)> {
        let accepts = self.accepted < most && self.clients.len() < MOST_CLIENTS;
        let accepting = if accepts { Interest::Read } else { Interest::Nothing };
        let mut sockets = vec![
            (self.commands.input.as_fd(), self.commands.interest),
            (self.listener.as_fd(), accepting),
        ];
        sockets.extend(self.clients.iter().map(|it| (it.peer.as_fd(), it.peer.interest())));
        sockets
    }

    fn accept(&mut self) -> Result<(), Box<dyn Error>> {
        if let Some(stream) = self.listener.accept()? {
            self.accepted += 1;
            let (number, peer) = (self.accepted, Peer::open_with(stream, 1, Policy::Strict)?);
            self.clients.push(Client { number, peer, devices: [None; DEVICES] });
        }
        Ok(())
    }

    fn obey(&mut self) -> io::Result<()> {
        for line in self.commands.lines()? {
            match line.as_str() {
                "end" => self.ends = true,
                "pause" => self.pause(true),
                "resume" => self.pause(false),
                _ => println!("pause, resume or end"),
            }
        }
        Ok(())
    }

    fn pause(&mut self, paused: bool) {
        self.desk.paused = paused;
        self.clients.iter_mut().for_each(|client| client.pause_or_resume(paused));
    }
}

fn run(path: &str, most: usize) -> Result<(), Box<dyn Error>> {
    check_version()?;
    let mut compositor = Compositor {
        listener: Listener::bind(path)?,
        commands: Commands::new()?,
        desk: Desk { keymap: KeymapFile::xkb(KEYMAP)?, paused: false },
        clients: Vec::new(),
        accepted: 0,
        ends: false,
    };
    compositor.serve(most)
}

fn main() -> ExitCode {
    let words: Vec<String> = std::env::args().skip(1).collect();
    let most = words.get(1).map_or(Ok(usize::MAX), |count| count.parse());
    let (1..=2, Ok(most)) = (words.len(), most) else {
        eprintln!("usage: compositor PATH [CLIENTS]");
        return ExitCode::from(2);
    };
    match run(&words[0], most) {
        Ok(()) => ExitCode::SUCCESS,
        Err(error) => {
            eprintln!("compositor: {error}");
            ExitCode::FAILURE
        }
    }
}
