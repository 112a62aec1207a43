//! No signal comes where a client that is to be written to has gone. It has a process of its own, whose signals are those that a
//! program in C begins with.

mod common;

use common::{pair, worked};
use std::ffi::c_int;
use std::io::ErrorKind;

const SIGPIPE: c_int = 13;
const SIG_DFL: usize = 0;

extern "C" {
    fn signal(number: c_int, handler: usize) -> usize;
}

#[test]
fn a_client_that_has_gone() {
    // SAFETY: the default is no handler of this program's.
    unsafe { signal(SIGPIPE, SIG_DFL) };
    let (client, mut connection) = pair(&worked("leaves").setup());
    drop(client);
    assert_eq!(connection.turn(0).unwrap_err().kind(), ErrorKind::BrokenPipe);
}
