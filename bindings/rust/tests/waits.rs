//! How clients in threads dial, and how they send the last bytes of a connection, over sockets that
//! don't take bytes, or whose peer doesn't read or close.
#![cfg(feature = "std")]

mod peers;

use peers::{alone, holds, reset_query, Stamp, LATE, PATIENCE};
use rtr_wire::{Client, ClientError, ClientOptions, Event, Socket, Unit};
use std::io::{self, ErrorKind, Read, Write};
use std::ops::ControlFlow;
use std::os::unix::io::{AsFd, BorrowedFd};
use std::os::unix::net::UnixStream;
use std::sync::atomic::{AtomicU32, Ordering};
use std::sync::{Arc, Mutex};
use std::time::{Duration, Instant};

/// A unit of a type that nobody knows, for which a client owes a report (RFC 8210 section 12).
const UNKNOWN: [u8; 8] = [0, 5, 0, 0, 0, 0, 0, 8];

/// A socket that takes a few bytes in each write, and from one of its writes on nothing: it fails
/// by this, or else it returns 0.
struct Full {
    socket: UnixStream,
    writes: Arc<AtomicU32>,
    most: usize,
    first: u32,
    fails: Option<ErrorKind>,
}

impl Read for Full {
    fn read(&mut self, bytes: &mut [u8]) -> io::Result<usize> {
        self.socket.read(bytes)
    }
}

impl Write for Full {
    fn write(&mut self, bytes: &[u8]) -> io::Result<usize> {
        let count = 1 + self.writes.fetch_add(1, Ordering::SeqCst);
        match self.fails {
            _ if count < self.first => self.socket.write(&bytes[..bytes.len().min(self.most)]),
            Some(error) => Err(error.into()),
            None => Ok(0),
        }
    }

    fn flush(&mut self) -> io::Result<()> {
        Ok(())
    }
}

impl Socket for Full {
    fn socket(&self) -> BorrowedFd<'_> {
        self.socket.as_fd()
    }

    fn finish(&mut self) -> io::Result<()> {
        self.socket.finish()
    }
}

/// A client of one connection, the other end of that, and how many writes there were. It asks in
/// version 0: there is no lower one to fall to.
fn client(
    first: u32,
    fails: Option<ErrorKind>,
    report: Duration,
) -> (Client, UnixStream, Arc<AtomicU32>) {
    writing(usize::MAX, first, fails, report)
}

/// Does the same with a socket that accepts at most `most` bytes in a write.
fn writing(
    most: usize,
    first: u32,
    fails: Option<ErrorKind>,
    report: Duration,
) -> (Client, UnixStream, Arc<AtomicU32>) {
    let (mine, other) = UnixStream::pair().unwrap();
    mine.set_nonblocking(true).unwrap();
    let writes = Arc::new(AtomicU32::new(0));
    let socket = Full {
        socket: mine,
        writes: Arc::clone(&writes),
        most,
        first,
        fails,
    };
    let socket = Mutex::new(Some(socket));
    let options = ClientOptions {
        version: 0,
        report,
        ..ClientOptions::default()
    };
    let client = Client::over(options, move |_| {
        let socket = socket.lock().unwrap().take();
        socket.ok_or_else(|| ErrorKind::ConnectionRefused.into())
    });
    (client, other, writes)
}

/// A client whose socket takes no bytes has lost its connection, also with a report.
#[test]
fn writes_of_nothing() {
    let _alone = alone();
    for first in [1, 2] {
        let (client, mut other, _) = client(first, None, PATIENCE);
        other.write_all(&UNKNOWN).unwrap();
        let begun = Instant::now();
        let error = client.fetch().unwrap_err();
        assert!(begun.elapsed() < LATE, "{first}: {:?}", begun.elapsed());
        let is_of_writing =
            matches!(&error, ClientError::Io(error) if error.kind() == ErrorKind::WriteZero);
        assert_eq!(is_of_writing, first == 1, "{error}");
    }
}

/// A report arrives whole, also at a cache that sends on: bytes that the client didn't read would
/// reset the connection.
#[test]
fn reports_arrive() {
    let _alone = alone();
    for more in [0, 1 << 19] {
        let (client, mut other, _) = client(u32::MAX, None, PATIENCE);
        let cache = std::thread::spawn(move || {
            other.write_all(&UNKNOWN)?;
            other.write_all(&vec![0; more])?;
            let mut came = Vec::new();
            other.read_to_end(&mut came).map(|_| came)
        });
        client.fetch().unwrap_err();
        let came = cache.join().unwrap().unwrap();
        assert_eq!(came[..8], reset_query(0), "{more}");
        assert_eq!(came[8..10], [0, 10], "{more}");
    }
}

/// A query and a report arrive whole where the socket takes a few bytes at a time.
#[test]
fn parts_of_a_report() {
    let _alone = alone();
    for most in [1, 7] {
        let (client, mut other, _) = writing(most, u32::MAX, None, PATIENCE);
        let cache = std::thread::spawn(move || {
            other.write_all(&UNKNOWN)?;
            let mut came = Vec::new();
            other.read_to_end(&mut came).map(|_| came)
        });
        client.fetch().unwrap_err();
        let came = cache.join().unwrap().unwrap();
        assert_eq!(came[..8], reset_query(0), "{most}");
        let about = match Unit::first(&came[8..]) {
            Ok((Unit::ErrorReport(report), [])) => report.parts.map(|parts| parts.unit),
            other => panic!("{most}: {other:?}"),
        };
        assert_eq!(about, Some(&UNKNOWN[..]), "{most}");
    }
}

/// After a report a client reads a mebibyte of a cache that sends on, and closes then.
#[test]
fn bytes_after_a_report() {
    let _alone = alone();
    let (client, mut other, _) = client(u32::MAX, None, PATIENCE);
    let cache = std::thread::spawn(move || {
        other.write_all(&UNKNOWN).unwrap();
        // A little more, since some of these are read before the report is owed.
        let _ = other.write_all(&vec![0; ClientOptions::LAST_BYTES + (1 << 17)]);
        other // which stays open
    });
    let begun = Instant::now();
    client.fetch().unwrap_err();
    assert!(begun.elapsed() < LATE, "{:?}", begun.elapsed());
    drop(cache.join().unwrap());
}

/// The time for a report ends the connection of a cache that takes none of it, and of one that
/// takes it and doesn't close.
#[test]
fn reports_in_time() {
    let _alone = alone();
    for first in [2, u32::MAX] {
        let limit = Duration::from_millis(500);
        let (client, mut other, _) = client(first, Some(ErrorKind::WouldBlock), limit);
        other.write_all(&UNKNOWN).unwrap();
        let begun = Stamp::now();
        let error = client.fetch().unwrap_err();
        let ended = Stamp::now();
        assert!(!matches!(error, ClientError::Io(_)), "{error}");
        let (time, slept) = (begun.until(ended), begun.slept_until(ended));
        assert!(time >= limit && time < LATE, "{first}: {time:?}");
        assert!(slept < limit * 3 / 2, "{first}: it slept {slept:?}");
    }
}

/// A client that is stopped doesn't wait for a cache to take its report, or to close.
#[test]
fn stopped_in_a_report() {
    let _alone = alone();
    for first in [2, u32::MAX] {
        let (client, mut other, writes) = client(first, Some(ErrorKind::WouldBlock), PATIENCE);
        std::thread::scope(|scope| {
            let running = scope.spawn(|| client.run(|_: Event<'_>| ControlFlow::Continue(())));
            let mut query = [0; 8];
            other.read_exact(&mut query).unwrap();
            assert_eq!(query[..], reset_query(0));
            other.write_all(&UNKNOWN).unwrap();
            assert!(holds(|| writes.load(Ordering::SeqCst) >= 2));
            let begun = Instant::now();
            client.stop();
            assert_eq!(running.join().unwrap(), None);
            assert!(begun.elapsed() < LATE, "{first}: {:?}", begun.elapsed());
        });
    }
}

/// Each dial has the time for connecting, which begins with it.
#[test]
fn times_of_dials() {
    let _alone = alone();
    let limit = Duration::from_secs(1);
    let options = ClientOptions {
        dial: limit,
        pause: Duration::from_millis(1),
        retry: Some(Duration::from_millis(1)),
        ..ClientOptions::default()
    };
    let times = Arc::new(Mutex::new(Vec::new()));
    let dialed = Arc::clone(&times);
    let client = Client::over(options, move |time| {
        dialed.lock().unwrap().push(time);
        std::thread::sleep(Duration::from_millis(60));
        Err::<UnixStream, _>(ErrorKind::ConnectionRefused.into())
    });
    client.run(|_| match times.lock().unwrap().len() {
        4.. => ControlFlow::Break(()),
        _ => ControlFlow::Continue(()),
    });
    let times = times.lock().unwrap();
    assert!(
        times.len() >= 4 && times.iter().all(|time| *time <= limit),
        "{times:?}"
    );
}
