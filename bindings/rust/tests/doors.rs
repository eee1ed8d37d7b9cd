//! The door of a server: which clients are served, refused and left waiting (`docs/SESSIONS.md`,
//! "The cache").
#![cfg(feature = "std")]

mod peers;

use peers::*;
use rtr_wire::*;
use std::fs::File;
use std::io::{self, ErrorKind, Read, Write};
use std::os::unix::io::{AsFd, BorrowedFd};
use std::sync::mpsc::{channel, Receiver};
use std::sync::Mutex;

/// What a client above the limit gets.
const FULL: Option<(ErrorCode, u8)> = Some((ErrorCode::INTERNAL_ERROR, 2));

/// A server with data for this many clients, and the texts of why it ended connections.
fn telling(connections: usize) -> (Server, Receiver<String>) {
    let (sender, endings) = channel();
    let sender = Mutex::new(sender);
    let options = ServerOptions {
        connections,
        ..ServerOptions::default()
    };
    let server = Server::telling(options, move |_, error| {
        let _ = sender.lock().unwrap().send(error.to_string());
    });
    assert_eq!(server.update(data(1)), Ok(true));
    (server, endings)
}

fn is_served(client: &mut Peer) {
    client.send(&reset_query(2));
    assert_eq!(client.response(), data(1).as_bytes());
}

/// A client that is served, and 64 that are refused, at a server for one.
fn full(connect: impl Fn() -> Peer) -> (Peer, Vec<Peer>) {
    let mut first = connect();
    is_served(&mut first);
    let mut refused: Vec<Peer> = (0..64).map(|_| connect()).collect();
    for client in &mut refused {
        assert_eq!(client.report(), FULL);
    }
    (first, refused)
}

/// Above the limit 64 clients are refused at once. Others wait to be accepted until one of these
/// closes, or a served one does; a refused client that doesn't close keeps its place.
#[test]
fn clients_that_wait() {
    let _alone = alone();
    let (server, _endings) = telling(1);
    let address = server.listen("127.0.0.1:0").unwrap();
    let (first, mut refused) = full(|| Peer::connect(address));
    let mut waiting = Peer::connect(address);
    let patience = Some(milliseconds(500));
    waiting.stream.get_ref().set_read_timeout(patience).unwrap();
    let nothing = waiting.stream.read(&mut [0]).unwrap_err();
    assert_eq!(nothing.kind(), ErrorKind::WouldBlock);
    let patience = Some(PATIENCE);
    waiting.stream.get_ref().set_read_timeout(patience).unwrap();
    drop(refused.pop());
    assert_eq!(waiting.report(), FULL);
    drop(first);
    assert!(holds(|| server.clients() == 0));
    is_served(&mut Peer::connect(address));
}

/// A connection that a program hands over is closed without a report if too many are refused.
#[test]
fn connections_that_are_handed_over() {
    let _alone = alone();
    let (server, endings) = telling(1);
    let listener = std::net::TcpListener::bind("127.0.0.1:0").unwrap();
    let connect = || {
        let client = Peer::connect(listener.local_addr().unwrap());
        let (stream, from) = listener.accept().unwrap();
        stream.set_nonblocking(true).unwrap();
        server.serve(stream, from).unwrap();
        client
    };
    let (_one, mut refused) = full(connect);
    assert!(connect().is_closed());
    for _ in 0..=64 {
        let text = endings.recv_timeout(PATIENCE);
        assert_eq!(text.as_deref(), Ok("too many connections"));
    }
    assert_eq!(server.clients(), 1);
    drop(refused.pop());
    assert!(holds(|| connect().report().is_some()));
}

/// A socket that the system can't wait for: a file.
struct Unpolled(File);

impl Read for Unpolled {
    fn read(&mut self, _: &mut [u8]) -> io::Result<usize> {
        Err(ErrorKind::WouldBlock.into())
    }
}

impl Write for Unpolled {
    fn write(&mut self, _: &[u8]) -> io::Result<usize> {
        Err(ErrorKind::WouldBlock.into())
    }

    fn flush(&mut self) -> io::Result<()> {
        Ok(())
    }
}

impl Socket for Unpolled {
    fn socket(&self) -> BorrowedFd<'_> {
        self.0.as_fd()
    }

    fn finish(&mut self) -> io::Result<()> {
        Ok(())
    }
}

/// A connection that can't be served leaves its place to another one.
#[test]
fn a_connection_that_fails_at_once() {
    let _alone = alone();
    let (server, endings) = telling(1);
    let from = ([192, 0, 2, 1], 323).into();
    let file = File::open(std::env::current_exe().unwrap()).unwrap();
    server.serve(Unpolled(file), from).unwrap();
    assert!(endings.recv_timeout(PATIENCE).is_ok());
    let address = server.listen("127.0.0.1:0").unwrap();
    is_served(&mut Peer::connect(address));
}

/// A client that ended with a report is served until it closes: it may still send, and counts.
#[test]
fn a_client_that_lingers() {
    let _alone = alone();
    let (server, _endings) = telling(1);
    let mut client = Peer::connect(server.listen("127.0.0.1:0").unwrap());
    client.send(&prefix(1, 7));
    let invalid = Some((ErrorCode::INVALID_REQUEST, 2));
    assert_eq!(client.report(), invalid);
    std::thread::sleep(milliseconds(1000));
    for _ in 0..3 {
        client.send(&reset_query(2));
        std::thread::sleep(milliseconds(50));
    }
    assert_eq!(server.clients(), 1);
    drop(client);
    assert!(holds(|| server.clients() == 0));
}

/// At most the limit is served, and 64 above it are refused at once.
#[test]
fn doors() {
    let mut door = Door::new(&ServerOptions {
        connections: 2,
        ..ServerOptions::default()
    });
    assert!(!door.leave(Entry::Serve) && !door.leave(Entry::Refuse));
    for clients in 1..=2 {
        assert_eq!(door.next(true), Entry::Serve);
        assert_eq!(door.enter(true), Entry::Serve);
        assert_eq!(door.clients(), clients);
    }
    for _ in 0..64 {
        assert_eq!(door.next(true), Entry::Refuse);
        assert_eq!(door.enter(true), Entry::Refuse);
    }
    assert_eq!(door.next(true), Entry::Wait);
    assert_eq!(door.enter(true), Entry::Wait);
    assert!(!door.leave(Entry::Wait));
    assert!(door.leave(Entry::Serve));
    assert_eq!(door.clients(), 1);
    assert_eq!(door.next(false), Entry::Wait);
    assert!(door.leave(Entry::Refuse));
    assert_eq!(door.next(false), Entry::Refuse);
    assert_eq!(door.enter(true), Entry::Serve);
    assert_eq!(door.enter(true), Entry::Refuse);
    assert_eq!(door.enter(true), Entry::Wait);
    assert_eq!(door.clients(), 2);
}

/// The options limit how many clients are refused at once: zero refuses none, and the largest
/// number of the machine is a limit, too.
#[test]
fn doors_that_refuse_others() {
    for refused in [0, 3] {
        let mut door = Door::new(&ServerOptions {
            connections: 0,
            refused,
            ..ServerOptions::default()
        });
        for _ in 0..refused {
            assert_eq!(door.enter(true), Entry::Refuse);
        }
        assert_eq!(door.enter(true), Entry::Wait);
    }
    let most = Door::new(&ServerOptions {
        connections: 0,
        refused: usize::MAX,
        ..ServerOptions::default()
    });
    assert_eq!(most.next(true), Entry::Refuse);
}

/// By default 1024 clients are served; without a spare descriptor none.
#[test]
fn the_usual_door() {
    let mut door = Door::new(&ServerOptions::default());
    assert_eq!(door.enter(false), Entry::Refuse);
    for _ in 0..1024 {
        assert_eq!(door.enter(true), Entry::Serve);
    }
    assert_eq!(door.enter(true), Entry::Refuse);
    let options = ServerOptions::default();
    assert_eq!((options.connections, options.refused), (1024, 64));
    assert_eq!((options.report, options.behind), (milliseconds(10_000), 2));
    assert_eq!(options.keep, milliseconds(2 * 3_600_000));
    assert_eq!(options.keep_bytes, 64 << 20);
    assert_eq!(options.notify, milliseconds(60_000));
    assert!(!options.refuse);
}
