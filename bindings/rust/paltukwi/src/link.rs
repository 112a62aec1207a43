//! A client's connection for a policy of the program's own, without its socket.

use crate::answers::{end_name, fed, lent, text, told};
use crate::device::Regions;
use crate::errors::{FeedError, NoMemory, NotUnsent, StartError, TellError};
use crate::session::check_version;
use crate::{
    Capabilities, Client, DeviceId, DeviceSetup, End, Input, Modifiers, PingId, Policy, Reason,
    Request, SeatId, Unsent,
};
use paltukwi_sys as sys;
use std::os::fd::OwnedFd;
use std::ptr::null;

/// A client's connection for a policy of the program's own: the program announces seats and devices as it likes, takes them away,
/// pauses and resumes them, and tells a client that receives of input.
///
/// `reis.h` calls it a connection. Here [`Connection`](crate::Connection) is a session over its socket; this one over its socket
/// is a [`Peer`](crate::Peer).
///
/// It does nothing by itself. Hand in what came ([`feed`](Link::feed)), act on what the client asks for
/// ([`next_request`](Link::next_request)), write what waits ([`unsent`](Link::unsent), [`sent`](Link::sent)), and let go of it
/// when it is over and all is written ([`end`](Link::end)). Behind [`Connected`](Request::Connected) [`client`](Link::client)
/// tells who the client is, and seats can be added, and devices where the client binds.
///
/// A [`SeatId`] and a [`DeviceId`] borrow nothing: a call with one that is gone answers [`Gone`](TellError::Gone). Where the
/// client disconnects all are gone. A call that tells the client something only makes bytes that wait; one that is refused
/// changes nothing.
///
/// A link stays on its thread: it is neither `Send` nor `Sync`.
///
/// ```compile_fail,E0277
/// fn goes_to_another_thread<T: Send>() {}
/// goes_to_another_thread::<paltukwi::Link>();
/// ```
///
/// What is lent is read before the next call:
///
/// ```compile_fail,E0499
/// fn keeps_what_is_lent(link: &mut paltukwi::Link) {
///     let unsent = link.unsent();
///     link.next_request();
///     assert!(unsent.bytes.is_empty());
/// }
/// ```
#[derive(Debug)]
pub struct Link {
    raw: sys::reis_connection,
    /// The descriptors of the keymaps that wait, in their order: the library has their numbers as handles.
    keymaps: Vec<OwnedFd>,
}

/// What comes and goes.
impl Link {
    /// Starts a link that refuses no more than the protocol does, and whose greeting waits to be written. `serial` is the one that
    /// it bears at first.
    ///
    /// # Errors
    ///
    /// `Version`, where the library is of another version than these bindings; `NoMemory`.
    pub fn start(serial: u32) -> Result<Link, StartError> {
        Link::start_with(serial, Policy::Protocol)
    }

    /// Starts a link that refuses what this policy does.
    ///
    /// # Errors
    ///
    /// Those of [`start`](Link::start).
    pub fn start_with(serial: u32, policy: Policy) -> Result<Link, StartError> {
        check_version()?;
        let mut raw = sys::reis_connection::none();
        // SAFETY: the word is zero.
        match unsafe { sys::reis_connection_start(&mut raw, serial, policy.flags()) } {
            sys::REIS_OK => Ok(Link { raw, keymaps: Vec::new() }),
            _ => Err(StartError::NoMemory),
        }
    }

    /// Hands in one piece of what came from the client, as [`Session::feed`](crate::Session::feed) does. What the client asks
    /// waits as requests, and nothing is done about them: a bind makes no device.
    ///
    /// It may end the link: see [`end`](Link::end).
    ///
    /// # Errors
    ///
    /// `Over`, where the link is over; else `Empty`, `TooLong`, `TooManyHandles`, in this order. All is as it was then.
    pub fn feed(&mut self, bytes: &[u8], handles: &[u32], time: u64) -> Result<(), FeedError> {
        let (at, count) = (bytes.as_ptr(), bytes.len());
        let (handles_at, handle_count) = (handles.as_ptr(), handles.len());
        // SAFETY: each pointer and count are one slice's, and the word is a link's.
        fed(unsafe {
            sys::reis_connection_feed(&mut self.raw, at, count, handles_at, handle_count, time)
        })
    }

    /// Says that no more comes from the client. The link is over then.
    ///
    /// # Errors
    ///
    /// `Over`, where it is over already.
    pub fn end_of_input(&mut self) -> Result<(), FeedError> {
        // SAFETY: the word is a link's.
        fed(unsafe { sys::reis_connection_end_of_input(&mut self.raw) })
    }

    /// Lends all that waits to be written to the client. It waits until [`sent`](Link::sent) counts it. It works after the end
    /// too.
    ///
    /// A handle is a descriptor of a keymap, to be passed with the first of the bytes (`SCM_RIGHTS` of `sendmsg`). It is the
    /// link's own, which closes it behind that.
    pub fn unsent(&mut self) -> Unsent<'_, OwnedFd> {
        let (mut bytes, mut count) = (null(), 0);
        let (mut handles, mut handle_count) = (null(), 0);
        // SAFETY: the word is a link's, and the others are of the types that are written.
        unsafe {
            sys::reis_connection_unsent(
                &mut self.raw,
                &mut bytes,
                &mut count,
                &mut handles,
                &mut handle_count,
            );
        }
        debug_assert_eq!(handle_count, self.keymaps.len());
        // SAFETY: the library lends so many at this place until the next call on the link, which has to wait until this
        // borrow of it is over.
        Unsent { bytes: unsafe { lent(bytes, count) }, handles: &self.keymaps }
    }

    /// Says that the first so many bytes were written, and with the first of them all handles that waited: they wait no more.
    ///
    /// # Errors
    ///
    /// `NotUnsent`, where so many bytes don't wait: all wait still.
    pub fn sent(&mut self, bytes: usize) -> Result<(), NotUnsent> {
        // SAFETY: the word is a link's.
        if unsafe { sys::reis_connection_sent(&mut self.raw, bytes) } != sys::REIS_OK {
            return Err(NotUnsent);
        }
        if bytes > 0 {
            self.keymaps.clear();
        }
        Ok(())
    }

    /// The next request of the client, which waits no more, in the order in which they were made, but that
    /// [`Connected`](Request::Connected) comes first, once the handshake is done, and [`SeatReleased`](Request::SeatReleased) and
    /// [`Pong`](Request::Pong) only while no other waits. It works after the end too; behind the client's own disconnect only
    /// those that are older come.
    ///
    /// By [`Policy::Strict`] it may end the client, and it is `None` too where memory runs out:
    /// [`try_next_request`](Link::try_next_request) tells that apart.
    pub fn next_request(&mut self) -> Option<Request> {
        self.try_next_request().ok().flatten()
    }

    /// As [`next_request`](Link::next_request).
    ///
    /// # Errors
    ///
    /// `NoMemory`, only by [`Policy::Strict`]: no request is lost, and a later call hands out the next one.
    pub fn try_next_request(&mut self) -> Result<Option<Request>, NoMemory> {
        let mut written = sys::reis_request::none();
        // SAFETY: the word is a link's, and the request is borrowed alone.
        match unsafe { sys::reis_connection_next_request(&mut self.raw, &mut written) } {
            sys::REIS_OK => Ok(Some(Request::of(&written, || self.request_text()))),
            sys::REIS_NO_MEMORY => Err(NoMemory),
            _ => Ok(None),
        }
    }

    fn request_text(&mut self) -> String {
        // SAFETY: the pointer and the room are one vector's, and the word is a link's.
        let (_, text) = text(|at, room, length| unsafe {
            sys::reis_connection_request_text(&mut self.raw, at, room, length)
        });
        text
    }

    /// Who the client is: `None` until the handshake is done. It is told after the end too.
    pub fn client(&mut self) -> Option<Client> {
        let mut context_type = sys::reis_context_type(0);
        // SAFETY: the pointer and the room are one vector's, and the word is a link's.
        let (answer, name) = text(|at, room, length| unsafe {
            sys::reis_connection_client(&mut self.raw, &mut context_type, at, room, length)
        });
        (answer == sys::REIS_OK).then(|| Client::of(name, context_type))
    }

    /// How the link ended; `None` while it goes on.
    pub fn end(&mut self) -> Option<End> {
        let mut end = sys::REIS_END_GOES_ON;
        // SAFETY: the word is a link's, and the end is borrowed alone.
        unsafe { sys::reis_connection_end(&mut self.raw, &mut end) };
        End::of(end, || end_name(end))
    }

    /// Tells the client that the link ends, why, and in a text for people, if there is one; an empty one is none. All seats
    /// and devices are taken away before it. The link is over by that; where it was over, for what the client sent, the client
    /// is told all the same, and [`end`](Link::end) tells what came first.
    ///
    /// # Errors
    ///
    /// `NotConnected`; `MessageTooLong`; `NoMemory`; `Over`, where the client was told before.
    pub fn disconnect(&mut self, reason: Reason, text: Option<&str>) -> Result<(), TellError> {
        let text = text.unwrap_or("");
        let (at, length) = (text.as_ptr().cast(), text.len());
        // SAFETY: the pointer and the count are one text's, and the word is a link's.
        told(unsafe { sys::reis_connection_disconnect(&mut self.raw, reason.raw(), at, length) })
    }
}

/// Pings, seats and devices. Each of these calls answers `Over`, where the link is over, and `NotConnected`, where the handshake isn't
/// done; any may answer `NoMemory`.
impl Link {
    /// Asks the client to answer, which [`Pong`](Request::Pong) tells, with the ping's id.
    ///
    /// # Errors
    ///
    /// `IdsExhausted`.
    pub fn ping(&mut self) -> Result<PingId, TellError> {
        let mut ping = 0;
        // SAFETY: the word is a link's, and the id is borrowed alone.
        told(unsafe { sys::reis_connection_ping(&mut self.raw, &mut ping) })?;
        Ok(PingId(ping))
    }

    /// Announces a seat of that name, if it has one, which gives these capabilities. An empty name is none.
    ///
    /// # Errors
    ///
    /// `Capabilities`, where a bit stands for none; `IdsExhausted`; `MessageTooLong`.
    pub fn add_seat(
        &mut self,
        name: Option<&str>,
        capabilities: Capabilities,
    ) -> Result<SeatId, TellError> {
        let (name, bits) = (name.unwrap_or(""), capabilities.bits());
        let (at, length) = (name.as_ptr().cast(), name.len());
        let mut seat = 0;
        // SAFETY: the pointer and the count are one text's, the word is a link's, and the id is borrowed alone.
        told(unsafe { sys::reis_connection_add_seat(&mut self.raw, at, length, bits, &mut seat) })?;
        Ok(SeatId(seat))
    }

    /// Takes a seat away, behind its devices.
    ///
    /// # Errors
    ///
    /// `Gone`.
    pub fn remove_seat(&mut self, seat: SeatId) -> Result<(), TellError> {
        // SAFETY: the word is a link's.
        told(unsafe { sys::reis_connection_remove_seat(&mut self.raw, seat.0) })
    }

    /// Announces a device of a seat, with an interface for each of its capabilities. It takes no input until
    /// [`resume`](Link::resume).
    ///
    /// The descriptor of a keymap stays the program's, which may close it at once: the link has a duplicate, until that is
    /// written or the link is dropped.
    ///
    /// # Errors
    ///
    /// `Gone`, where there is no such seat; `Capabilities`, where a bit stands for none, or is one that the seat wasn't given;
    /// `NoKeyboard`; `TooManyHandles`; `IdsExhausted`; `MessageTooLong`, of the name or a mapping id; `Descriptor`, where
    /// so many are open that there is no room for one more.
    pub fn add_device(
        &mut self,
        seat: SeatId,
        setup: &DeviceSetup<'_>,
    ) -> Result<DeviceId, TellError> {
        let keymap = setup.keymap.map(|keymap| keymap.duplicate()).transpose()?;
        let regions = Regions::of(setup.regions)?;
        let described = setup.raw(&regions, keymap.as_ref());
        let mut device = 0;
        // SAFETY: each pointer and count of the description are those of a slice or a text that is lent here, the word is a
        // link's, and the id is borrowed alone.
        told(unsafe {
            sys::reis_connection_add_device(&mut self.raw, seat.0, &described, &mut device)
        })?;
        self.keymaps.extend(keymap);
        Ok(DeviceId(device))
    }

    /// Takes a device away. What it waits for a frame to hand out is dropped.
    ///
    /// # Errors
    ///
    /// `Gone`.
    pub fn remove_device(&mut self, device: DeviceId) -> Result<(), TellError> {
        // SAFETY: the word is a link's.
        told(unsafe { sys::reis_connection_remove_device(&mut self.raw, device.0) })
    }

    /// Tells the client that the device takes input.
    ///
    /// # Errors
    ///
    /// `Gone`.
    pub fn resume(&mut self, device: DeviceId) -> Result<(), TellError> {
        // SAFETY: the word is a link's.
        told(unsafe { sys::reis_connection_resume(&mut self.raw, device.0) })
    }

    /// Tells the client that the device takes no input: then no touch of it is down any more.
    ///
    /// # Errors
    ///
    /// `Gone`.
    pub fn pause(&mut self, device: DeviceId) -> Result<(), TellError> {
        // SAFETY: the word is a link's.
        told(unsafe { sys::reis_connection_pause(&mut self.raw, device.0) })
    }

    /// Whether the device has the interface of this one capability left: false where it never had it, or the client released
    /// it. It works after the end too, and answers neither `Over` nor `NotConnected`.
    ///
    /// # Errors
    ///
    /// `Capabilities`, where it isn't exactly one; `Gone`.
    pub fn device_has(&mut self, device: DeviceId, one: Capabilities) -> Result<bool, TellError> {
        let mut has = 0;
        // SAFETY: the word is a link's, and the answer's number is borrowed alone.
        told(unsafe {
            sys::reis_connection_device_has(&mut self.raw, device.0, one.bits(), &mut has)
        })?;
        Ok(has == 1)
    }

    /// Tells the client which modifiers hold on the device's keyboard. It goes to senders and to receivers.
    ///
    /// # Errors
    ///
    /// `Gone`; `Capabilities`, where the device has no keyboard, or has it no more.
    pub fn modifiers(&mut self, device: DeviceId, modifiers: Modifiers) -> Result<(), TellError> {
        let Modifiers { depressed, locked, latched, group } = modifiers;
        // SAFETY: the word is a link's.
        told(unsafe {
            sys::reis_connection_modifiers(
                &mut self.raw,
                device.0,
                depressed,
                locked,
                latched,
                group,
            )
        })
    }
}

/// What a client that receives is told. Each of these calls answers `Over`, where the link is over, `NotConnected`, where the
/// handshake isn't done, and `WrongRole`, where the client isn't a receiver; any may answer `NoMemory`.
impl Link {
    /// Tells the client that the device begins to send input, in the stretch of that number.
    ///
    /// # Errors
    ///
    /// `Gone`.
    pub fn start_emulating(&mut self, device: DeviceId, sequence: u32) -> Result<(), TellError> {
        // SAFETY: the word is a link's.
        told(unsafe { sys::reis_connection_start_emulating(&mut self.raw, device.0, sequence) })
    }

    /// Tells the client that the device sends no more input.
    ///
    /// # Errors
    ///
    /// `Gone`.
    pub fn stop_emulating(&mut self, device: DeviceId) -> Result<(), TellError> {
        // SAFETY: the word is a link's.
        told(unsafe { sys::reis_connection_stop_emulating(&mut self.raw, device.0) })
    }

    /// Tells the client that what came of the device since its last frame belongs together, and came at that time: see
    /// [`now`](crate::now).
    ///
    /// # Errors
    ///
    /// `Gone`.
    pub fn frame(&mut self, device: DeviceId, time: u64) -> Result<(), TellError> {
        // SAFETY: the word is a link's.
        told(unsafe { sys::reis_connection_frame(&mut self.raw, device.0, time) })
    }

    /// Tells the client of an input of the device, which belongs to the frame that comes next. Only the protocol wants a text
    /// of 1 to 254 bytes: that isn't tested.
    ///
    /// # Errors
    ///
    /// `Gone`; `Capabilities`, where the device hasn't the interface, or has it no more; `MessageTooLong`, of a text.
    pub fn send(&mut self, device: DeviceId, input: &Input) -> Result<(), TellError> {
        let (raw, text) = (input.raw(device), input.text());
        let (at, length) = (text.as_ptr().cast(), text.len());
        // SAFETY: the pointer and the count are one text's, the word is a link's, and the input is borrowed.
        told(unsafe { sys::reis_connection_send(&mut self.raw, &raw, at, length) })
    }
}

impl Drop for Link {
    fn drop(&mut self) {
        // SAFETY: the word is a link's, and is used no more.
        unsafe { sys::reis_connection_free(&mut self.raw) };
    }
}
