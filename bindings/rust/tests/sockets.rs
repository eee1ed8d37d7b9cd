//! Clients and caches in threads over sockets that aren't TCP, and how they wait.
#![cfg(feature = "std")]

mod peers;

use peers::*;
use rtr_wire::*;
use std::io::{self, ErrorKind, Read, Write};
use std::net::{SocketAddr, TcpStream};
use std::ops::ControlFlow;
use std::os::raw::{c_int, c_uint};
use std::os::unix::io::{AsRawFd, BorrowedFd};
use std::os::unix::net::UnixStream;
use std::process::Command;
use std::sync::mpsc::channel;
use std::sync::{Arc, Mutex};
use std::thread::Builder;
use std::time::{Duration, Instant};

/// A socket like one that encrypts: it hides bytes, holds some of them until it is flushed, and
/// refuses every second call, as one that would block or was interrupted by a signal.
struct Hidden<S> {
    socket: S,
    held: Vec<u8>,
    turns: u32,
}

fn invert(bytes: &mut [u8]) {
    for byte in bytes {
        *byte = !*byte;
    }
}

impl<S: Socket> Hidden<S> {
    fn new(socket: S) -> Self {
        Hidden {
            socket,
            held: Vec::new(),
            turns: 0,
        }
    }

    fn turn(&mut self) -> io::Result<()> {
        self.turns += 1;
        match self.turns % 4 {
            1 => Err(ErrorKind::WouldBlock.into()),
            3 => Err(ErrorKind::Interrupted.into()),
            _ => Ok(()),
        }
    }
}

impl<S: Socket> Read for Hidden<S> {
    fn read(&mut self, bytes: &mut [u8]) -> io::Result<usize> {
        self.turn()?;
        let most = bytes.len().min(7);
        let count = self.socket.read(&mut bytes[..most])?;
        invert(&mut bytes[..count]);
        Ok(count)
    }
}

impl<S: Socket> Write for Hidden<S> {
    fn write(&mut self, bytes: &[u8]) -> io::Result<usize> {
        self.turn()?;
        if self.held.len() >= 100 {
            let count = self.socket.write(&self.held)?;
            self.held.drain(..count);
        }
        let count = bytes.len().min(11);
        self.held.extend(bytes[..count].iter().map(|byte| !byte));
        Ok(count)
    }

    fn flush(&mut self) -> io::Result<()> {
        while !self.held.is_empty() {
            self.turn()?;
            let count = self.socket.write(&self.held)?;
            self.held.drain(..count);
        }
        Ok(())
    }
}

impl<S: Socket> Socket for Hidden<S> {
    fn socket(&self) -> BorrowedFd<'_> {
        self.socket.socket()
    }

    fn finish(&mut self) -> io::Result<()> {
        self.socket.finish()
    }
}

fn server_options() -> ServerOptions {
    ServerOptions {
        notify: milliseconds(1),
        ..ServerOptions::default()
    }
}

fn client_options() -> ClientOptions {
    ClientOptions {
        version: 2,
        pause: milliseconds(5),
        retry: Some(milliseconds(20)),
        ..ClientOptions::default()
    }
}

/// The client has the data of each serial number, one after the other.
fn follows(client: &Client, server: &Server) {
    let mut serial = 1;
    let last = client.run(|event| {
        match event {
            Event::Data { data: now, .. } => assert_eq!(*now, data(serial)),
            other => panic!("{other:?}"),
        }
        serial += 1;
        if serial > 4 {
            return ControlFlow::Break(());
        }
        assert_eq!(server.update(data(serial)), Ok(true));
        ControlFlow::Continue(())
    });
    assert_eq!(last, Some(data(4)));
}

/// A client and a cache over a pair of sockets without an address.
#[test]
fn sockets_of_unix() {
    let _alone = alone();
    let server = Arc::new(Server::new(server_options()));
    server.update(data(1)).unwrap();
    let serving = Arc::clone(&server);
    let client = Client::over(client_options(), move |_| {
        let (mine, other) = UnixStream::pair()?;
        mine.set_nonblocking(true)?;
        other.set_nonblocking(true)?;
        serving.serve(other, SocketAddr::from(([192, 0, 2, 1], 323)))?;
        Ok(mine)
    });
    follows(&client, &server);
    assert!(holds(|| server.clients() == 0));
}

/// The same over sockets that hide, buffer and refuse: nothing is lost.
#[test]
fn hidden_bytes() {
    let _alone = alone();
    let server = Server::new(server_options());
    server.update(data(1)).unwrap();
    let ready = |stream| Ok(Hidden::new(stream));
    let address = server.listen_with("127.0.0.1:0", ready).unwrap();
    let client = Client::over(client_options(), move |time| {
        let stream = TcpStream::connect_timeout(&address, time)?;
        stream.set_nonblocking(true)?;
        Ok(Hidden::new(stream))
    });
    follows(&client, &server);
    assert!(holds(|| server.clients() == 0));
    // A client without the transport gets a report, which it can't decode, whole; also one that
    // has closed.
    for closes in [false, true] {
        let mut plain = Peer::connect(address);
        if closes {
            plain.send(&[2, 2]);
            plain.finish();
        } else {
            plain.send(&reset_query(2));
        }
        let mut report = Vec::new();
        plain.stream.read_to_end(&mut report).unwrap();
        invert(&mut report);
        assert!(matches!(
            Unit::first(&report),
            Ok((Unit::ErrorReport(_), []))
        ));
    }
}

/// A report reaches the cache over such a socket, too.
#[test]
fn a_hidden_report() {
    let _alone = alone();
    let (mine, other) = UnixStream::pair().unwrap();
    mine.set_nonblocking(true).unwrap();
    let mine = Mutex::new(Some(mine));
    let client = Client::over(client_options(), move |_| {
        let mine = mine.lock().unwrap().take();
        mine.map(Hidden::new)
            .ok_or_else(|| ErrorKind::NotFound.into())
    });
    std::thread::scope(|scope| {
        let fetched = scope.spawn(|| client.fetch());
        let mut hidden = Hidden::new(other);
        let mut read = |count: usize| {
            let mut bytes = vec![0; count];
            hidden.socket.read_exact(&mut bytes).unwrap();
            invert(&mut bytes);
            bytes
        };
        assert_eq!(read(8), reset_query(2));
        // A cache response of another length (RFC 8210 section 5.5).
        hidden.held = [2, 3, 0x12, 0x34, 0, 0, 0, 9, 0]
            .map(|byte: u8| !byte)
            .to_vec();
        while hidden.flush().is_err() {}
        let mut report = Vec::new();
        hidden.socket.read_to_end(&mut report).unwrap();
        invert(&mut report);
        match Unit::first(&report) {
            Ok((Unit::ErrorReport(report), _)) => {
                assert_eq!(report.code, ErrorCode::CORRUPT_DATA);
            }
            other => panic!("{other:?}"),
        }
        let error = fetched.join().unwrap();
        assert!(matches!(error, Err(ClientError::Refused(_))), "{error:?}");
    });
}

/// If the caller's function refuses a connection, that is reported, and no other client waits for
/// it. The function gets sockets without the delay of Nagle's algorithm.
#[test]
fn connections_that_are_refused() {
    let _alone = alone();
    let (sender, told) = channel();
    let sender = Mutex::new(sender);
    let server = Server::telling(server_options(), move |_, error| {
        let _ = sender.lock().unwrap().send(error.to_string());
    });
    server.update(data(1)).unwrap();
    let (has_delay, delays) = channel();
    let ready = move |stream: TcpStream| {
        has_delay.send(!stream.nodelay()?).unwrap();
        Err::<TcpStream, _>(io::Error::new(ErrorKind::Other, "no"))
    };
    let address = server.listen_with("127.0.0.1:0", ready).unwrap();
    let plain = server.listen("127.0.0.1:0").unwrap();
    assert!(Peer::connect(address).is_closed());
    assert_eq!(told.recv_timeout(PATIENCE).as_deref(), Ok("no"));
    assert_eq!(delays.try_recv(), Ok(false));
    let mut client = Peer::connect(plain);
    client.send(&reset_query(2));
    assert_eq!(client.response(), data(1).as_bytes());
}

extern "C" {
    // The C library has it on Linux.
    fn getsockopt(
        socket: c_int,
        level: c_int,
        option: c_int,
        value: *mut c_int,
        size: *mut c_uint,
    ) -> c_int;
    fn signal(number: c_int, handler: usize) -> usize;
}

/// A router that breaks its connection within an answer doesn't end a program that has the system's
/// default for SIGPIPE, which needs its own process.
#[test]
fn broken_pipes() {
    const OWN: &str = "RTR_TEST_PIPES";
    const BROKEN_PIPE: c_int = 13;
    let _alone = alone();
    if std::env::var_os(OWN).is_none() {
        let mut own = Command::new(std::env::current_exe().unwrap());
        let output = own.args(["--exact", "broken_pipes"]).env(OWN, "").output();
        let output = output.unwrap();
        let stdout = String::from_utf8_lossy(&output.stdout);
        assert!(stdout.contains("1 passed"), "{}: {stdout}", output.status);
        return;
    }
    // SAFETY: 0 is the default, no function.
    unsafe { signal(BROKEN_PIPE, 0) };
    let server = Server::new(server_options());
    assert_eq!(server.update(unbuffered()), Ok(true));
    let mut router = Peer::connect(server.listen("127.0.0.1:0").unwrap());
    router.send(&reset_query(2));
    router.is_sent_to();
    router.finish();
    drop(router); // with bytes unread, which resets the connection
    assert!(holds(|| server.clients() == 0));
}

/// The system holds few unsent bytes of a client; Linux doubles the size that is set (socket(7)).
#[test]
fn unsent_bytes_in_the_system() {
    const SOCKET: c_int = 1;
    const UNSENT: c_int = 7;
    let _alone = alone();
    let server = Server::new(server_options());
    let (sender, sizes) = channel();
    let ready = move |stream: TcpStream| {
        let (mut bytes, mut size) = (0, 4);
        // SAFETY: both numbers are live, and the first has this size.
        unsafe { getsockopt(stream.as_raw_fd(), SOCKET, UNSENT, &mut bytes, &mut size) };
        sender.send(bytes).unwrap();
        Ok(stream)
    };
    let address = server.listen_with("127.0.0.1:0", ready).unwrap();
    let _client = Peer::connect(address);
    let bytes = sizes.recv_timeout(PATIENCE).expect("it is accepted");
    assert!(0 < bytes && bytes <= 2 << 17, "{bytes}");
}

/// A client that waits for bytes, for the time of its next connection, or to write its query
/// doesn't wake, and still ends when it is stopped.
#[test]
fn no_client_wakes() {
    let _alone = alone();
    let server = Server::new(ServerOptions::default());
    server.update(data(1)).unwrap();
    let address = server.listen("127.0.0.1:0").unwrap().to_string();
    let waiting = Client::new(address, client_options());
    let options = ClientOptions {
        retry: Some(Duration::from_secs(60)),
        ..client_options()
    };
    let refused = Client::over(options, |_| {
        Err::<TcpStream, _>(ErrorKind::ConnectionRefused.into())
    });
    let full = Client::over(client_options(), |_| {
        let (mut mine, other) = UnixStream::pair()?;
        mine.set_nonblocking(true)?;
        while mine.write(&[0; 1 << 12]).is_ok() {}
        std::mem::forget(other); // it is there, and reads nothing
        Ok(mine)
    });
    let names = ["rtr waiting", "rtr refused", "rtr full"];
    std::thread::scope(|scope| {
        let clients = [&waiting, &refused, &full];
        let threads = names.iter().zip(clients).map(|(name, client)| {
            let thread = Builder::new().name((*name).to_string());
            let run = move || client.run(|_| ControlFlow::Continue(()));
            thread.spawn_scoped(scope, run).unwrap()
        });
        let threads: Vec<_> = threads.collect();
        let stays_asleep = stay_asleep(&names);
        let began = Instant::now();
        clients.into_iter().for_each(Client::stop);
        for thread in threads {
            thread.join().unwrap();
        }
        assert!(began.elapsed() < LATE, "they end late");
        assert!(stays_asleep, "they wake");
    });
}
