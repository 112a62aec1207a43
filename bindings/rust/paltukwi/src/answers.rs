//! What the library answers, and what it lends and writes.

use crate::errors::{FeedError, TellError};
use paltukwi_sys as sys;
use std::ffi::CStr;
use std::slice;

/// What the answer of `feed` or `end_of_input` says.
pub(crate) fn fed(answer: sys::reis_answer) -> Result<(), FeedError> {
    match answer {
        sys::REIS_OK => Ok(()),
        sys::REIS_EMPTY => Err(FeedError::Empty),
        sys::REIS_TOO_LONG => Err(FeedError::TooLong),
        sys::REIS_TOO_MANY_HANDLES => Err(FeedError::TooManyHandles),
        _ => Err(FeedError::Over),
    }
}

/// What the answer of a call says that tells a client something.
pub(crate) fn told(answer: sys::reis_answer) -> Result<(), TellError> {
    Err(match answer {
        sys::REIS_OK => return Ok(()),
        sys::REIS_OVER => TellError::Over,
        sys::REIS_NOT_CONNECTED => TellError::NotConnected,
        sys::REIS_GONE => TellError::Gone,
        sys::REIS_WRONG_ROLE => TellError::WrongRole,
        sys::REIS_CAPABILITIES => TellError::Capabilities,
        sys::REIS_NO_KEYBOARD => TellError::NoKeyboard,
        sys::REIS_TOO_MANY_HANDLES => TellError::TooManyHandles,
        sys::REIS_MESSAGE_TOO_LONG => TellError::MessageTooLong,
        sys::REIS_IDS_EXHAUSTED => TellError::IdsExhausted,
        sys::REIS_NO_MEMORY => TellError::NoMemory,
        sys::REIS_INVALID => TellError::Invalid,
        sys::REIS_SIZE => TellError::Size,
        sys::reis_answer(number) => TellError::Unknown { number },
    })
}

/// The items at a place; none where the count is 0, wherever the place is.
///
/// # Safety
///
/// So many items stand there, and none is changed as long as they are lent.
pub(crate) unsafe fn lent<'a, T>(at: *const T, count: usize) -> &'a [T] {
    if count == 0 {
        return &[];
    }
    // SAFETY: the caller's.
    unsafe { slice::from_raw_parts(at, count) }
}

/// What a call answers, and the text that it writes at a place, with so much room, and whose length it tells: empty where
/// there is none. It is called again where there was no room.
pub(crate) fn text(
    mut call: impl FnMut(*mut u8, usize, &mut usize) -> sys::reis_answer,
) -> (sys::reis_answer, String) {
    let mut text = vec![0; sys::REIS_MOST_TEXT];
    loop {
        let mut length = 0;
        let answer = call(text.as_mut_ptr(), text.len(), &mut length);
        text.resize(length, 0);
        if answer != sys::REIS_NO_ROOM {
            return (answer, String::from_utf8_lossy(&text).into_owned());
        }
    }
}

/// The name of an end, for a log.
pub(crate) fn end_name(end: sys::reis_end) -> String {
    // SAFETY: the call takes any number, and its text, which a zero ends, stays for good.
    let name = unsafe { CStr::from_ptr(sys::reis_end_name(end)) };
    name.to_string_lossy().into_owned()
}
