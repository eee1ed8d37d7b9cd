//! Waits for several sockets, and wakes a thread from another one.

use std::io::{self, Read, Write};
use std::os::raw::{c_int, c_short, c_uint, c_ulong};
use std::os::unix::io::{AsRawFd, FromRawFd, OwnedFd};
use std::os::unix::net::UnixStream;
use std::ptr::null_mut;
use std::vec::Vec;

/// A socket to wait for: the C library's struct pollfd.
#[repr(C)]
#[derive(Clone, Copy, Debug)]
pub(crate) struct Awaited {
    descriptor: c_int,
    events: c_short,
    came: c_short,
}

extern "C" {
    // Functions of the C library on Linux: the standard library can't wait for several sockets.
    fn poll(awaited: *mut Awaited, count: c_ulong, milliseconds: c_int) -> c_int;
    // The same for many sockets, which are registered once.
    fn epoll_create1(flags: c_int) -> c_int;
    fn epoll_ctl(poller: c_int, how: c_int, descriptor: c_int, event: *mut Event) -> c_int;
    fn epoll_wait(poller: c_int, events: *mut Event, most: c_int, milliseconds: c_int) -> c_int;
    fn listen(socket: c_int, waiting: c_int) -> c_int;
    fn setsockopt(
        socket: c_int,
        level: c_int,
        option: c_int,
        value: *const c_int,
        size: c_uint,
    ) -> c_int;
    fn sigemptyset(signals: *mut Signals) -> c_int;
    fn sigaddset(signals: *mut Signals, signal: c_int) -> c_int;
    fn pthread_sigmask(how: c_int, signals: *const Signals, before: *mut Signals) -> c_int;
}

/// A set of signals: the C library's `sigset_t`.
#[repr(C)]
struct Signals([u64; 16]);

/// Keeps SIGPIPE from this thread. sendfile raises it at a connection that the peer broke, and a
/// program that has the system's default for it would end.
pub(crate) fn block_broken_pipes() {
    const BLOCK: c_int = 0;
    const BROKEN_PIPE: c_int = 13;
    let mut signals = Signals([0; 16]);
    // SAFETY: the set is live, and nobody asks for the one before.
    unsafe {
        sigemptyset(&mut signals);
        sigaddset(&mut signals, BROKEN_PIPE);
        pthread_sigmask(BLOCK, &signals, null_mut());
    }
}

/// Sets the longest queue of connections that aren't accepted yet.
pub(crate) fn keep_waiting(listener: &impl AsRawFd) {
    // SAFETY: these are numbers.
    unsafe { listen(listener.as_raw_fd(), c_int::MAX) };
}

/// Sets the size of the send buffer.
pub(crate) fn limit_unsent(socket: &impl AsRawFd, bytes: c_int) {
    const SOCKET: c_int = 1;
    const UNSENT: c_int = 7;
    // SAFETY: the number is live, and of this size.
    unsafe { setsockopt(socket.as_raw_fd(), SOCKET, UNSENT, &bytes, 4) };
}

const READABLE: c_short = 1;
const WRITABLE: c_short = 4;

impl Awaited {
    pub(crate) fn to_read(socket: &impl AsRawFd) -> Awaited {
        Awaited::of(socket, READABLE)
    }

    pub(crate) fn to_write(socket: &impl AsRawFd) -> Awaited {
        Awaited::of(socket, WRITABLE)
    }

    fn of(socket: &impl AsRawFd, events: c_short) -> Awaited {
        Awaited {
            descriptor: socket.as_raw_fd(),
            events,
            came: 0,
        }
    }

    /// Reports whether the socket is ready, or has failed.
    #[cfg(test)]
    pub(crate) fn is_ready(self) -> bool {
        self.came != 0
    }
}

/// Waits until a socket is ready, a signal comes, or the milliseconds have passed.
pub(crate) fn wait(sockets: &mut [Awaited], milliseconds: u64) {
    let most = c_int::try_from(milliseconds).unwrap_or(c_int::MAX);
    // SAFETY: the slice is live, borrowed mutably, and of this length.
    unsafe { poll(sockets.as_mut_ptr(), sockets.len() as c_ulong, most) };
}

/// What to wait for, and the socket's key.
#[cfg_attr(target_arch = "x86_64", repr(C, packed))]
#[cfg_attr(not(target_arch = "x86_64"), repr(C))]
#[derive(Clone, Copy)]
struct Event {
    what: u32,
    key: u64,
}

/// Waits for many sockets, each with a key.
#[derive(Debug)]
pub(crate) struct Poller(OwnedFd);

impl Poller {
    /// How many ready sockets are returned at once.
    const MOST: u8 = 250;

    pub(crate) fn new() -> io::Result<Poller> {
        const CLOSED_ON_EXEC: c_int = 0o2_000_000;
        // SAFETY: it takes a number.
        let descriptor = unsafe { epoll_create1(CLOSED_ON_EXEC) };
        if descriptor < 0 {
            return Err(io::Error::last_os_error());
        }
        // SAFETY: the descriptor was just created, and nobody else has it.
        Ok(Poller(unsafe { OwnedFd::from_raw_fd(descriptor) }))
    }

    /// Registers a socket, to wait until it can be read, or written.
    pub(crate) fn add(&self, socket: &impl AsRawFd, key: u64, wants_room: bool) -> io::Result<()> {
        const ADD: c_int = 1;
        self.control(ADD, socket, key, wants_room)
    }

    /// Changes what to wait for.
    pub(crate) fn change(&self, socket: &impl AsRawFd, key: u64, wants_room: bool) {
        const MODIFY: c_int = 3;
        let _ = self.control(MODIFY, socket, key, wants_room);
    }

    /// Unregisters a socket.
    pub(crate) fn remove(&self, socket: &impl AsRawFd) {
        const DELETE: c_int = 2;
        let _ = self.control(DELETE, socket, 0, false);
    }

    fn control(
        &self,
        how: c_int,
        socket: &impl AsRawFd,
        key: u64,
        wants_room: bool,
    ) -> io::Result<()> {
        const READABLE: u32 = 1;
        const WRITABLE: u32 = 4;
        let what = if wants_room { WRITABLE } else { READABLE };
        let mut event = Event { what, key };
        let (poller, descriptor) = (self.0.as_raw_fd(), socket.as_raw_fd());
        // SAFETY: the event is live, and the call doesn't keep its address.
        match unsafe { epoll_ctl(poller, how, descriptor, &mut event) } {
            0 => Ok(()),
            _ => Err(io::Error::last_os_error()),
        }
    }

    /// Waits until a socket is ready, a signal comes, or the milliseconds have passed; returns the
    /// keys of sockets that are ready or have failed.
    pub(crate) fn wait(&self, milliseconds: u64) -> Vec<u64> {
        let limit = c_int::try_from(milliseconds).unwrap_or(c_int::MAX);
        let mut events = [Event { what: 0, key: 0 }; Poller::MOST as usize];
        let (poller, most) = (self.0.as_raw_fd(), c_int::from(Poller::MOST));
        // SAFETY: the array is live, borrowed mutably, and of this length.
        let count = unsafe { epoll_wait(poller, events.as_mut_ptr(), most, limit) };
        let count = usize::try_from(count).unwrap_or(0);
        events[..count].iter().map(|event| event.key).collect()
    }
}

/// Wakes a thread that waits.
#[derive(Debug)]
pub(crate) struct Waker(UnixStream);

/// The end that a thread waits for, to be woken by a [`Waker`].
#[derive(Debug)]
pub(crate) struct Woken(UnixStream);

/// Creates a waker, and the end that it wakes.
pub(crate) fn waker() -> std::io::Result<(Waker, Woken)> {
    let (waker, woken) = UnixStream::pair()?;
    waker.set_nonblocking(true)?;
    woken.set_nonblocking(true)?;
    Ok((Waker(waker), Woken(woken)))
}

impl Waker {
    pub(crate) fn wake(&self) {
        // If the pipe is full, the thread is woken already.
        let _ = (&self.0).write(&[0]);
    }
}

impl Woken {
    pub(crate) fn awaited(&self) -> Awaited {
        Awaited::to_read(&self.0)
    }

    pub(crate) fn socket(&self) -> &UnixStream {
        &self.0
    }

    /// Clears the wake-up.
    pub(crate) fn clear(&self) {
        let _ = (&self.0).read(&mut [0; 64]);
    }
}

#[cfg(test)]
mod tests {
    use super::{wait, waker};
    use std::sync::mpsc::channel;
    use std::thread::spawn;
    use std::time::Duration;

    /// Waking never blocks, however often, even while the woken thread is busy.
    #[test]
    fn wakes_of_a_busy_thread() {
        let (waker, woken) = waker().unwrap();
        let (sender, done) = channel();
        let waking = spawn(move || {
            (0..10_000).for_each(|_| waker.wake());
            sender.send(()).unwrap();
            waker
        });
        assert_eq!(done.recv_timeout(Duration::from_secs(30)), Ok(()));
        let _waker = waking.join().unwrap();
        let mut awaited = [woken.awaited()];
        wait(&mut awaited, 0);
        assert!(awaited[0].is_ready());
    }
}
