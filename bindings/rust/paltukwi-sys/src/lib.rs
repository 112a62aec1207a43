//! The calls of `reis.h`, as they stand there: a server's session of the ei protocol, and a connection without a policy, for a
//! program with a loop of its own.
//!
//! These are the raw declarations, by hand. The crate `paltukwi` is the safe face of them, and `reis.h` says what each call
//! does, who owns what, and what a caller must see to. In short: a [`reis_session`] is all zero before [`reis_session_start`],
//! stays on its thread, and is used in one place alone; what [`reis_session_unsent`] lends is read before the next call on the
//! session. All this is so for a [`reis_connection`] too.
//!
//! A number of the library is a type of its own, as [`reis_kind`], with constants: any number may stand in it, also one that
//! isn't named here.

#![allow(non_camel_case_types)]
#![no_std]

mod answers;
mod connection;
mod ends;
mod numbers;
mod request;

pub use answers::*;
pub use connection::*;
pub use ends::*;
pub use numbers::*;
pub use request::*;

use core::ffi::c_char;

#[cfg(not(all(target_arch = "x86_64", target_pointer_width = "64")))]
compile_error!("libreis is built for x86-64, with pointers of eight bytes, and for nothing else");

/// A session, or none where it is null.
///
/// It may be moved, and then the old word is not used any more.
#[repr(C)]
#[derive(Debug)]
pub struct reis_session {
    at: *mut u8,
}

impl reis_session {
    /// No session: what [`reis_session_start`] wants.
    #[must_use]
    pub const fn none() -> reis_session {
        reis_session { at: core::ptr::null_mut() }
    }
}

extern "C" {
    /// The version of the library, as a number like [`REIS_VERSION`].
    pub fn reis_version() -> u32;

    /// Starts a session in a word that is zero. Its greeting waits to be written. `serial` is the serial that the connection
    /// bears at first, `capabilities` what its one seat offers, `pieces` the most pieces that it takes, where one more ends
    /// it, or [`REIS_NO_PIECE_LIMIT`].
    ///
    /// `REIS_OK`, `REIS_HAS_SESSION`, `REIS_CAPABILITIES`, `REIS_NO_MEMORY`, `REIS_NULL`.
    pub fn reis_session_start(
        session: *mut reis_session,
        serial: u32,
        capabilities: u64,
        pieces: u32,
    ) -> reis_answer;

    /// Hands in one piece of what came from the client: 1 to [`REIS_MOST_BYTES`] bytes, cut anywhere, and the numbers of the
    /// at most [`REIS_MOST_HANDLES`] descriptors that came with them. `time` is in microseconds of `CLOCK_MONOTONIC`: that of
    /// each frame that the server makes itself while it handles the piece.
    ///
    /// `REIS_OK`, `REIS_NO_SESSION`, `REIS_OVER`, `REIS_EMPTY`, `REIS_TOO_LONG`, `REIS_TOO_MANY_HANDLES`, `REIS_NULL`.
    pub fn reis_session_feed(
        session: *mut reis_session,
        bytes: *const u8,
        count: usize,
        handles: *const u32,
        handle_count: usize,
        time: u64,
    ) -> reis_answer;

    /// Says that no more comes from the client. The session is over then.
    ///
    /// `REIS_OK`, `REIS_NO_SESSION`, `REIS_OVER`, `REIS_NULL`.
    pub fn reis_session_end_of_input(session: *mut reis_session) -> reis_answer;

    /// Lends all bytes and handles that wait to be written to the client, until the next call on the session. Where nothing
    /// waits, and where there is no session, the counts are 0 and the pointers null.
    ///
    /// `REIS_OK`, `REIS_NO_SESSION`, `REIS_NULL`.
    pub fn reis_session_unsent(
        session: *mut reis_session,
        bytes: *mut *const u8,
        count: *mut usize,
        handles: *mut *const u32,
        handle_count: *mut usize,
    ) -> reis_answer;

    /// Says that the first so many bytes and handles were written: they wait no more.
    ///
    /// `REIS_OK`, `REIS_NO_SESSION`, `REIS_NULL`. `REIS_NOT_UNSENT`: so many don't wait, and all wait still.
    pub fn reis_session_sent(
        session: *mut reis_session,
        bytes: usize,
        handles: usize,
    ) -> reis_answer;

    /// Tells who the client is, while its connection stands: what it is, and its name, without a zero behind it. The length is
    /// 0 where the client gave none.
    ///
    /// `REIS_OK`. `REIS_NO_ROOM`: the name isn't written, the type and the length are. `REIS_NOTHING`, with length 0: no
    /// connection stands. `REIS_NO_SESSION`, with length 0. `REIS_NULL`.
    pub fn reis_session_client(
        session: *mut reis_session,
        context_type: *mut reis_context_type,
        name: *mut u8,
        room: usize,
        length: *mut usize,
    ) -> reis_answer;

    /// Ends the session where it still goes on, and gives its memory back: the word is zero. What waits is lost.
    ///
    /// `REIS_OK`, `REIS_NO_SESSION`, `REIS_NULL`.
    pub fn reis_session_free(session: *mut reis_session) -> reis_answer;

    /// Hands out the next request, which waits no more.
    ///
    /// `REIS_OK`, `REIS_NO_SESSION`, `REIS_NOTHING`, `REIS_NULL`; where it isn't `REIS_OK` the request isn't written.
    pub fn reis_session_next_request(
        session: *mut reis_session,
        request: *mut reis_request,
    ) -> reis_answer;

    /// Writes the text of the request that was handed out last, without a zero behind it, and tells its length in bytes.
    ///
    /// `REIS_OK`. `REIS_NO_ROOM`: nothing is written, and the length is that of the text. `REIS_NOTHING`, with length 0: that
    /// request has no text, or none was handed out. `REIS_NO_SESSION`, with length 0. `REIS_NULL`.
    pub fn reis_session_request_text(
        session: *mut reis_session,
        text: *mut u8,
        room: usize,
        length: *mut usize,
    ) -> reis_answer;

    /// Tells in `end` how the session ended, or [`REIS_END_GOES_ON`].
    ///
    /// `REIS_OK`. `REIS_NO_SESSION`, with `end` [`REIS_END_GOES_ON`]. `REIS_NULL`.
    pub fn reis_session_end(session: *mut reis_session, end: *mut reis_end) -> reis_answer;

    /// Writes the text of the error that ended the session, without a zero behind it, and tells its length in bytes.
    ///
    /// `REIS_OK`. `REIS_NO_ROOM`: nothing is written, and the length is that of the text. `REIS_NOTHING`, with length 0: no
    /// error ended it. `REIS_NO_MEMORY`, with length 0. `REIS_NO_SESSION`, with length 0. `REIS_NULL`.
    pub fn reis_session_end_text(
        session: *mut reis_session,
        text: *mut u8,
        room: usize,
        length: *mut usize,
    ) -> reis_answer;

    /// The name of an answer, for a log; "unknown" where it has none. The text stays for good.
    pub fn reis_answer_name(answer: reis_answer) -> *const c_char;
    /// The name of a kind.
    pub fn reis_kind_name(kind: reis_kind) -> *const c_char;
    /// The name of an end.
    pub fn reis_end_name(end: reis_end) -> *const c_char;
}

/// Whether a library of this version fits these declarations: the first two parts of their versions are the same.
#[must_use]
pub const fn version_matches(library: u32) -> bool {
    library >> 8 == REIS_VERSION >> 8
}

// The layout that the library has.
const _: () = {
    assert!(size_of::<reis_session>() == 8);
    assert!(size_of::<reis_answer>() == 4 && size_of::<reis_kind>() == 4);
    assert!(size_of::<reis_request>() == 64 && align_of::<reis_request>() == 8);
    assert!(core::mem::offset_of!(reis_request, seat) == 8);
    assert!(core::mem::offset_of!(reis_request, device) == 16);
    assert!(core::mem::offset_of!(reis_request, time) == 24);
    assert!(core::mem::offset_of!(reis_request, of) == 32);
    assert!(size_of::<reis_touch>() == 24 && core::mem::offset_of!(reis_touch, y) == 16);
    assert!(size_of::<reis_fields>() == 32);
};
