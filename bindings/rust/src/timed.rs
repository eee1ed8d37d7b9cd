//! A client's connections; every wait has a deadline.

use crate::abi::LAST_REPORT_BYTES;
use crate::cache::locked;
use crate::socket::Socket;
use crate::waiting::{wait, Awaited};
use std::io::{self, ErrorKind};
use std::net::Shutdown;
use std::os::unix::net::UnixStream;
use std::sync::atomic::{AtomicBool, Ordering};
use std::sync::Mutex;
use std::time::{Duration, Instant};
use std::vec::Vec;

/// How many bytes are discarded at a time: a page of memory, since few come after a last report.
const DISCARDED: usize = 1 << 12;

/// How long a thread waits at most if it can't be woken: the system had no descriptor left.
pub(crate) const TICK: Duration = Duration::from_millis(100);

/// Whether threads have to stop, and their waker.
#[derive(Debug, Default)]
pub(crate) struct Stop {
    is_set: AtomicBool,
    /// The end that a thread waits for; its other end is shut down when threads have to stop.
    ends: Mutex<Option<(UnixStream, UnixStream)>>,
}

impl Stop {
    /// Stops all threads. It doesn't block, so a signal handler may call it.
    pub(crate) fn set(&self) {
        self.is_set.store(true, Ordering::SeqCst);
        // The thread that holds the lock checks this flag after releasing it.
        if let Ok(ends) = self.ends.try_lock() {
            if let Some((end, _)) = &*ends {
                let _ = end.shutdown(Shutdown::Both);
            }
        }
    }

    pub(crate) fn is_set(&self) -> bool {
        self.is_set.load(Ordering::SeqCst)
    }

    /// Waits until one of these is ready, the time has passed, or threads have to stop.
    pub(crate) fn wait(&self, sockets: impl IntoIterator<Item = Awaited>, most: Duration) {
        let woken = {
            let mut ends = locked(&self.ends);
            if ends.is_none() {
                *ends = UnixStream::pair().ok();
            }
            ends.as_ref().map(|(_, end)| Awaited::to_read(end))
        };
        if self.is_set() {
            return self.set(); // wakes other threads, which `set` may have missed
        }
        let most = if woken.is_some() {
            most
        } else {
            most.min(TICK)
        };
        let mut awaited: Vec<Awaited> = sockets.into_iter().chain(woken).collect();
        wait(&mut awaited, in_milliseconds(most));
    }
}

/// Converts a duration to milliseconds, rounded up.
fn in_milliseconds(span: Duration) -> u64 {
    let whole = u64::try_from(span.as_millis()).unwrap_or(u64::MAX);
    whole.saturating_add(u64::from(span.subsec_nanos() % 1_000_000 > 0))
}

/// Returns the moment after a duration; the far future if there is none.
pub(crate) fn after(start: Instant, time: Duration) -> Instant {
    const CENTURY: Duration = Duration::from_secs(100 * 365 * 24 * 60 * 60);
    start.checked_add(time).unwrap_or(start + CENTURY)
}

/// Returns the milliseconds since this moment.
pub(crate) fn milliseconds_since(begun: Instant) -> u64 {
    u64::try_from(begun.elapsed().as_millis()).unwrap_or(u64::MAX)
}

/// Returns the duration until a moment.
fn left(until: Instant) -> Duration {
    until.saturating_duration_since(Instant::now())
}

/// Reports whether a call would have blocked, or was interrupted by a signal.
pub(crate) fn has_to_wait(error: &io::Error) -> bool {
    matches!(error.kind(), ErrorKind::WouldBlock | ErrorKind::Interrupted)
}

/// Returns what a call that would have blocked, a write or else a read, waits for.
pub(crate) fn awaited(socket: &impl Socket, is_write: bool) -> Awaited {
    if socket.awaits_room().unwrap_or(is_write) {
        Awaited::to_write(&socket.socket())
    } else {
        Awaited::to_read(&socket.socket())
    }
}

/// Writes some of the bytes. Fails if the socket takes none.
pub(crate) fn write(socket: &mut impl Socket, bytes: &[u8]) -> io::Result<usize> {
    match socket.write(bytes)? {
        0 => Err(ErrorKind::WriteZero.into()),
        count => Ok(count),
    }
}

/// Sends the last bytes of a connection, and closes it so that they arrive, both until a deadline.
pub(crate) fn send_last(mut socket: impl Socket, bytes: &[u8], until: Instant, stop: &Stop) {
    let (mut rest, mut is_flushed) = (bytes, false);
    while !is_flushed {
        if stop.is_set() || left(until).is_zero() {
            return;
        }
        let done = match rest {
            [] => socket.flush().map(|()| is_flushed = true),
            some => write(&mut socket, some).map(|count| rest = &some[count..]),
        };
        match done {
            Err(error) if has_to_wait(&error) => {
                stop.wait(Some(awaited(&socket, true)), left(until));
            }
            Err(_) => return,
            Ok(()) => {}
        }
    }
    close(socket, until, stop);
}

/// Closes the connection so that written bytes still arrive: closing with unread bytes would reset
/// it, so it reads what the peer sends until that closes.
fn close(mut socket: impl Socket, until: Instant, stop: &Stop) {
    while matches!(socket.finish(), Err(error) if has_to_wait(&error)) {
        if stop.is_set() || left(until).is_zero() {
            return;
        }
        stop.wait(Some(awaited(&socket, true)), left(until));
    }
    let (mut bytes, mut buffer) = (0, [0; DISCARDED]);
    while bytes < LAST_REPORT_BYTES && !stop.is_set() && !left(until).is_zero() {
        match socket.read(&mut buffer) {
            Ok(0) => return,
            Ok(count) => bytes += count,
            Err(error) if has_to_wait(&error) => {
                stop.wait(Some(awaited(&socket, false)), left(until));
            }
            Err(_) => return,
        }
    }
}

#[cfg(test)]
mod tests {
    use super::{in_milliseconds, Stop};
    use std::time::{Duration, Instant};

    /// No wait is shorter than its time.
    #[test]
    fn parts_of_milliseconds() {
        for (nanoseconds, milliseconds) in [(0, 0), (1, 1), (1_000_000, 1), (1_000_001, 2)] {
            let span = Duration::from_nanos(nanoseconds);
            assert_eq!(in_milliseconds(span), milliseconds);
        }
    }

    #[test]
    fn a_stop_before_a_wait_ends_it() {
        let (stop, begun) = (Stop::default(), Instant::now());
        stop.set();
        stop.wait(None, Duration::from_secs(60));
        assert!(begun.elapsed() < Duration::from_secs(30));
    }
}
