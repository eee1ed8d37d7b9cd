//! Calls that a signal interrupts.

use std::io::{self, ErrorKind};
use std::task::Poll;

/// Makes a call on a stream, and makes it again if a signal interrupted it: tokio passes that error
/// of a system on.
pub(crate) fn repeated<T>(mut call: impl FnMut() -> Poll<io::Result<T>>) -> Poll<io::Result<T>> {
    loop {
        match call() {
            Poll::Ready(Err(error)) if error.kind() == ErrorKind::Interrupted => {}
            made => return made,
        }
    }
}
