//! A server's end of the ei protocol, for input of other programs: a compositor's side of libei.
//!
//! Begin with [`Listener`], which clients connect to. One client of it is one of these:
//!
//! | | over its socket | bytes in, bytes and [requests](Request) out, for a program that owns its sockets in another way |
//! |---|---|---|
//! | with the library's policy: one seat, and a device for what the client binds | [`Connection`] | [`Session`] |
//! | with a policy of the program's own: seats and devices as it likes, and input to a receiver | [`Peer`] | [`Link`] |
//!
//! ```no_run
//! use paltukwi::{now, wait, Connection, Interest, Listener, Setup};
//! use std::os::fd::AsFd;
//!
//! # fn main() -> Result<(), Box<dyn std::error::Error>> {
//! let listener = Listener::bind_auto()?;
//! wait(&[(listener.as_fd(), Interest::Read)], None)?;
//! if let Some(stream) = listener.accept()? {
//!     let mut client = Connection::open(stream, &Setup::default())?;
//!     while !client.is_done() {
//!         wait(&[(client.as_fd(), client.interest())], None)?;
//!         client.turn(now())?;
//!         while let Some(request) = client.next_request() {
//!             println!("{request}");
//!         }
//!     }
//! }
//! # Ok(())
//! # }
//! ```
//!
//! It stands on libreis, by the crate `paltukwi-sys`. What libreis answers is proved; these bindings are tested. There is no
//! client's end here.

mod answers;

mod capabilities;
pub use capabilities::Capabilities;

mod client;
pub use client::{Client, ContextType};

mod clock;
pub use clock::now;

mod connection;
pub use connection::Connection;

mod device;
pub use device::{DeviceSetup, DeviceType, Keymap, KeymapFile, Modifiers, Region};

mod end;
pub use end::{End, Reason, SessionError};

mod error_kind;
pub use error_kind::ErrorKind;

mod errors;
pub use errors::{FeedError, NoMemory, NotUnsent, StartError, TellError};

mod fields;

mod link;
pub use link::Link;

mod listener;
pub use listener::{BindError, Listener, MOST_NAMES};

mod path;

mod peer;
pub use peer::Peer;

mod policy;
pub use policy::Policy;

mod request;
pub use request::{DeviceId, Input, PingId, Request, SeatId};

mod session;
pub use session::{check_version, Session, Setup, Unsent, MOST_BYTES, MOST_HANDLES};

mod socket;

mod system;

mod wait;
pub use wait::{wait, Interest};
