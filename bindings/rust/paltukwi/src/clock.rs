//! The clock of the protocol.

use crate::system;

/// Microseconds of `CLOCK_MONOTONIC`, the clock of every time in this protocol, libei's too.
#[must_use]
pub fn now() -> u64 {
    let (seconds, nanoseconds) = system::monotonic_time();
    seconds * 1_000_000 + nanoseconds / 1000
}
