//! A client of a cache over a socket.

use crate::cache::Moment;
use crate::server_error::ServerError;
use crate::serving::{Served, ServedStep};
use crate::socket::Socket;
use crate::timed::has_to_wait;
use std::boxed::Box;
use std::io::{self, ErrorKind, IoSlice};
use std::net::SocketAddr;
use std::os::unix::io::{AsFd, BorrowedFd};

/// How many bytes are read at once.
const CHUNK: usize = 4096;

/// The callback for connections that the server ends.
pub(crate) type Ended = dyn Fn(SocketAddr, &ServerError) + Send + Sync;

/// The connection of a client.
pub(crate) struct Connection {
    socket: Box<dyn Socket>,
    from: SocketAddr,
    served: Served,
    /// Whether it has something to write.
    is_sending: bool,
    left: Left,
    is_over: bool,
}

/// What is left to do after sending.
enum Left {
    Nothing,
    /// Flush the socket.
    Bytes,
    /// Flush it, then shut it down for writing.
    Last,
}

impl Connection {
    /// Creates a connection from this address.
    pub(crate) fn new(socket: Box<dyn Socket>, from: SocketAddr, moment: &Moment) -> Self {
        Connection {
            socket,
            from,
            served: Served::new(moment),
            is_sending: false,
            left: Left::Nothing,
            is_over: false,
        }
    }

    /// Refuses the connection: the limit is reached. Serve it until it is closed.
    pub(crate) fn refuse(&mut self, moment: &Moment) {
        self.served.refuse(moment);
    }

    /// Reports whether the connection is still open.
    #[cfg(test)]
    pub(crate) fn is_served(&self) -> bool {
        self.served.is_served()
    }

    /// Reports whether nothing is left to do.
    pub(crate) fn is_over(&self) -> bool {
        self.is_over
    }

    /// Reports whether it waits to write, not to read.
    pub(crate) fn is_sending(&self) -> bool {
        self.socket.awaits_room().unwrap_or(self.is_sending)
    }

    /// Returns the socket to wait for.
    pub(crate) fn socket(&self) -> BorrowedFd<'_> {
        self.socket.socket()
    }

    /// Returns the deadline of its wait.
    pub(crate) fn wakes(&self, moment: &Moment) -> u64 {
        self.served.wakes(moment)
    }

    /// Serves the client without blocking, by at most one answer; `ready` reports whether what it
    /// waited for has come. Making and sending an answer takes time, so it reads the clock again.
    pub(crate) fn go_on(
        &mut self,
        moment: &mut Moment,
        clock: impl Fn() -> u64,
        ended: &Ended,
        is_ready: bool,
    ) {
        if is_ready && !self.is_sending {
            self.receive(moment);
        }
        let mut sends = true;
        loop {
            match self.served.next(moment) {
                ServedStep::Send if sends => sends = self.send(moment, &clock),
                ServedStep::Finish => {
                    self.left = Left::Last;
                    sends = false;
                }
                ServedStep::Ended(error) => ended(self.from, &error),
                step => return self.rest(&step, moment),
            }
        }
    }

    /// Waits for what this step needs, or is over.
    fn rest(&mut self, step: &ServedStep, moment: &Moment) {
        let is_flushed = self.flush();
        self.is_sending = matches!(step, ServedStep::Send) || !is_flushed;
        let is_late = self.served.wakes(moment) <= moment.now;
        self.is_over = matches!(step, ServedStep::Close) && (is_flushed || is_late);
    }

    /// Reads some bytes.
    fn receive(&mut self, moment: &Moment) {
        let mut buffer = [0; CHUNK];
        match self.socket.read(&mut buffer) {
            Ok(count) => self.served.received(moment, &buffer[..count]),
            Err(error) => self.lost(error),
        }
    }

    /// Sends unsent bytes; returns whether they were all those before a file's, so that these
    /// follow at once.
    fn send(&mut self, moment: &mut Moment, clock: impl Fn() -> u64) -> bool {
        let before_file = match self.served.file() {
            Some(_) => self.served.output()[0].len(),
            None => 0,
        };
        let written = self.write();
        moment.now = clock();
        match written {
            Ok(0) => self.served.lost(ErrorKind::WriteZero.into()),
            Ok(count) => {
                self.left = Left::Bytes;
                self.served.sent(moment, count);
                return count == before_file;
            }
            Err(error) => self.lost(error),
        }
        false
    }

    /// Writes some unsent bytes, from a file if the socket can. The bytes before the file's go in a
    /// write of their own, so that nothing of the file is copied.
    fn write(&mut self) -> io::Result<usize> {
        let [head, body] = self.served.output();
        if let Some((file, from)) = self.served.file() {
            if !head.is_empty() {
                return self.socket.write_before_file(head);
            }
            let sent = self.socket.send_file(file.as_fd(), from as u64, body.len());
            if let Some(sent) = sent {
                return sent;
            }
        }
        self.socket.write_vectored(&[head, body].map(IoSlice::new))
    }

    /// Flushes the socket if that is left to do, and reports whether it needn't wait to write.
    fn flush(&mut self) -> bool {
        if matches!(self.left, Left::Nothing) {
            return true;
        }
        match self.socket.flush() {
            Err(error) if has_to_wait(&error) => return false,
            Err(error) => self.served.lost(error),
            Ok(()) if matches!(self.left, Left::Last) => {
                if matches!(self.socket.finish(), Err(error) if has_to_wait(&error)) {
                    return false;
                }
            }
            Ok(()) => {}
        }
        self.left = Left::Nothing;
        true
    }

    /// Handles an error of a system call; a call that would block is no error.
    fn lost(&mut self, error: io::Error) {
        if !has_to_wait(&error) {
            self.served.lost(error);
        }
    }
}

#[cfg(test)]
mod tests {
    use super::Connection;
    use crate::{Cache, Data, ServerError, ServerOptions, Socket};
    use std::boxed::Box;
    use std::io::{self, ErrorKind, Read, Write};
    use std::net::{Ipv4Addr, Shutdown};
    use std::os::unix::io::{AsFd, BorrowedFd};
    use std::os::unix::net::UnixStream;
    use std::sync::atomic::{AtomicU32, Ordering};
    use std::sync::{Arc, Mutex};
    use std::time::Duration;
    use std::vec::Vec;

    /// Returns data with this many IPv4 prefixes.
    fn prefixes(count: u32) -> Data {
        let mut bytes = Vec::new();
        for number in 0..count {
            bytes.extend([2, 4, 0, 0, 0, 0, 0, 20, 1, 32, 32, 0]);
            bytes.extend(number.to_be_bytes());
            bytes.extend([0, 1, 0, 15]);
        }
        bytes.extend(Data::new(2, 4660, 1, None).unwrap().into_bytes());
        Data::parse(&bytes).unwrap()
    }

    /// The write deadline starts when an answer has been made and sent.
    #[test]
    fn the_time_of_an_answer_is_the_caches() {
        let cache = Cache::new(ServerOptions {
            write: Duration::from_millis(600),
            ..ServerOptions::default()
        });
        // More than the buffers of a socket hold.
        cache.update(prefixes(100_000)).unwrap();

        let (mut router, stream) = UnixStream::pair().unwrap();
        stream.set_nonblocking(true).unwrap();
        let mut moment = cache.at(0);
        let from = (Ipv4Addr::LOCALHOST, 0).into();
        let mut connection = Connection::new(Box::new(stream), from, &moment);
        router.write_all(&[2, 2, 0, 0, 0, 0, 0, 8]).unwrap();
        let ended = |_, error: &ServerError| panic!("{error}");
        connection.go_on(&mut moment, || 5000, &ended, true);
        assert!(connection.is_sending());
        assert_eq!(connection.wakes(&moment), 5600);
    }

    /// A socket that takes all bytes before a file's, and what `file` returns of these. It notes
    /// how many it was given of each.
    struct Filing {
        stream: UnixStream,
        given: Arc<Mutex<Vec<(&'static str, usize)>>>,
        file: fn(usize) -> io::Result<usize>,
    }

    impl Read for Filing {
        fn read(&mut self, bytes: &mut [u8]) -> io::Result<usize> {
            self.stream.read(bytes)
        }
    }

    impl Write for Filing {
        fn write(&mut self, bytes: &[u8]) -> io::Result<usize> {
            self.given.lock().unwrap().push(("alone", bytes.len()));
            Ok(bytes.len())
        }

        fn flush(&mut self) -> io::Result<()> {
            Ok(())
        }
    }

    impl Socket for Filing {
        fn socket(&self) -> BorrowedFd<'_> {
            self.stream.as_fd()
        }

        fn finish(&mut self) -> io::Result<()> {
            Ok(())
        }

        fn send_file(
            &mut self,
            _: BorrowedFd<'_>,
            _: u64,
            most: usize,
        ) -> Option<io::Result<usize>> {
            self.given.lock().unwrap().push(("file", most));
            Some((self.file)(most))
        }

        fn write_before_file(&mut self, bytes: &[u8]) -> io::Result<usize> {
            self.given.lock().unwrap().push(("before", bytes.len()));
            Ok(bytes.len())
        }
    }

    /// Serves a router all data once, which fill a file, over a `Filing`; returns what it was
    /// given, whether the connection waits to write, and how often it ended.
    fn filed(file: fn(usize) -> io::Result<usize>) -> (Vec<(&'static str, usize)>, bool, u32) {
        let cache = Cache::new(ServerOptions::default());
        cache.update(prefixes(5000)).unwrap();
        let (mut router, stream) = UnixStream::pair().unwrap();
        stream.set_nonblocking(true).unwrap();
        let given = Arc::default();
        let socket = Filing {
            stream,
            given: Arc::clone(&given),
            file,
        };
        let mut moment = cache.at(0);
        let from = (Ipv4Addr::LOCALHOST, 0).into();
        let mut connection = Connection::new(Box::new(socket), from, &moment);
        router.write_all(&[2, 2, 0, 0, 0, 0, 0, 8]).unwrap();
        let ends = Arc::new(AtomicU32::new(0));
        let counted = Arc::clone(&ends);
        let ended = move |_, _: &ServerError| {
            counted.fetch_add(1, Ordering::Relaxed);
        };
        connection.go_on(&mut moment, || 0, &ended, true);
        let waits = connection.is_sending();
        connection.go_on(&mut moment, || 0, &ended, true);
        let given = given.lock().unwrap().clone();
        (given, waits, ends.load(Ordering::Relaxed))
    }

    /// The first unit of an answer and the file behind it are sent in one step, also where the
    /// socket takes only a part of the file; an error of the file ends the connection.
    #[test]
    fn the_first_unit_goes_with_its_file() {
        // 5000 prefixes of 20 bytes, and the end of data of 24.
        let whole = [("before", 8), ("file", 100_024)];
        assert_eq!(filed(Ok), (whole.to_vec(), false, 0));
        let parts = [whole[0], whole[1], ("file", 50_012)];
        assert_eq!(filed(|most| Ok(most / 2)), (parts.to_vec(), true, 0));
        let failed = filed(|_| Err(ErrorKind::BrokenPipe.into()));
        assert_eq!(failed, (whole.to_vec(), false, 1));
        let twice = [whole[0], whole[1], whole[1]];
        let waits = filed(|_| Err(ErrorKind::WouldBlock.into()));
        assert_eq!(waits, (twice.to_vec(), true, 0));
    }

    /// A socket that holds what is written to it.
    struct Holding(UnixStream);

    impl Read for Holding {
        fn read(&mut self, bytes: &mut [u8]) -> io::Result<usize> {
            self.0.read(bytes)
        }
    }

    impl Write for Holding {
        fn write(&mut self, bytes: &[u8]) -> io::Result<usize> {
            Ok(bytes.len())
        }

        fn flush(&mut self) -> io::Result<()> {
            Err(ErrorKind::WouldBlock.into())
        }
    }

    impl Socket for Holding {
        fn socket(&self) -> BorrowedFd<'_> {
            self.0.as_fd()
        }

        fn finish(&mut self) -> io::Result<()> {
            Ok(())
        }
    }

    /// A report that the socket still holds keeps the connection of a client that has closed open,
    /// for 10 seconds (`docs/SESSIONS.md`, "The cache").
    #[test]
    fn a_report_that_is_held() {
        let cache = Cache::new(ServerOptions::default());
        let (mut router, stream) = UnixStream::pair().unwrap();
        let mut moment = cache.at(1000);
        let from = (Ipv4Addr::LOCALHOST, 0).into();
        let mut connection = Connection::new(Box::new(Holding(stream)), from, &moment);
        router.write_all(&[2, 2]).unwrap();
        router.shutdown(Shutdown::Write).unwrap();
        for _ in 0..2 {
            connection.go_on(&mut moment, || 1000, &|_, _| {}, true);
        }
        for (now, is_over) in [(1000, false), (10_999, false), (11_000, true)] {
            moment.now = now;
            assert_eq!(connection.wakes(&moment), 11_000);
            connection.go_on(&mut moment, || now, &|_, _| {}, false);
            assert_eq!(connection.is_over(), is_over);
        }
    }

    /// A socket that takes no bytes, or takes them and can't be flushed.
    struct Failing {
        stream: UnixStream,
        takes: bool,
    }

    impl Read for Failing {
        fn read(&mut self, bytes: &mut [u8]) -> io::Result<usize> {
            self.stream.read(bytes)
        }
    }

    impl Write for Failing {
        fn write(&mut self, bytes: &[u8]) -> io::Result<usize> {
            Ok(if self.takes { bytes.len() } else { 0 })
        }

        fn flush(&mut self) -> io::Result<()> {
            Err(ErrorKind::BrokenPipe.into())
        }
    }

    impl Socket for Failing {
        fn socket(&self) -> BorrowedFd<'_> {
            self.stream.as_fd()
        }

        fn finish(&mut self) -> io::Result<()> {
            Ok(())
        }
    }

    /// A socket that fails to write or to flush ends its connection once, for that reason.
    #[test]
    fn sockets_that_fail() {
        for (takes, kind) in [(false, ErrorKind::WriteZero), (true, ErrorKind::BrokenPipe)] {
            let cache = Cache::new(ServerOptions::default());
            cache.update(prefixes(1)).unwrap();
            let (mut router, stream) = UnixStream::pair().unwrap();
            stream.set_nonblocking(true).unwrap();
            let mut moment = cache.at(0);
            let (socket, from) = (Failing { stream, takes }, (Ipv4Addr::LOCALHOST, 0).into());
            let mut connection = Connection::new(Box::new(socket), from, &moment);
            router.write_all(&[2, 2, 0, 0, 0, 0, 0, 8]).unwrap();
            let kinds = Arc::new(Mutex::new(Vec::new()));
            let seen_kinds = Arc::clone(&kinds);
            let ended = move |_, error: &ServerError| match error {
                ServerError::Io(error) => seen_kinds.lock().unwrap().push(error.kind()),
                other => panic!("{other}"),
            };
            connection.go_on(&mut moment, || 0, &ended, true);
            assert!(connection.is_over() || connection.wakes(&moment) == 0);
            connection.go_on(&mut moment, || 0, &ended, false);
            assert!(connection.is_over());
            assert_eq!(*kinds.lock().unwrap(), [kind]);
        }
    }
}
