//! Clients and caches in threads over TLS, by a `Socket` that needs nothing of tokio.

mod certificates;
#[allow(dead_code)]
#[path = "../examples/tls.rs"]
mod example;
mod openssl;
mod over_tls;
#[path = "../../tests/peers/mod.rs"]
mod peers;

use self::openssl::OpenSsl;
use certificates::{now, paths, Authority, Folder, Names, NAME};
use example::{acceptor, connector};
use over_tls::{accepted, connect};
use peers::{alone, data, holds, milliseconds, Peer, LATE, PATIENCE};
use rtr_wire::{Client, ClientError, ClientOptions, Event, Server, ServerOptions};
use std::net::{SocketAddr, TcpListener};
use std::ops::ControlFlow;
use std::path::PathBuf;
use std::sync::mpsc::{channel, Receiver};
use std::sync::Mutex;
use std::time::{Duration, Instant};

fn client(address: SocketAddr, name: &'static str, files: &[PathBuf; 3]) -> Client {
    client_in(2, address, name, files)
}

fn client_in(version: u8, address: SocketAddr, name: &'static str, files: &[PathBuf; 3]) -> Client {
    let connector = connector(paths(files)).unwrap();
    let options = ClientOptions {
        version,
        ..ClientOptions::default()
    };
    Client::over(options, move |time| {
        connect(&connector, address, name, time)
    })
}

/// A cache with data over TLS, and why it ended connections. It takes each router of the authority;
/// a cache in use compares the address in the certificate, too, as `accept` of the example does.
fn cache(files: &[PathBuf; 3]) -> (Server, SocketAddr, Receiver<String>) {
    cache_until(PATIENCE, files)
}

/// The same with this time for a first query.
fn cache_until(
    first_query: Duration,
    files: &[PathBuf; 3],
) -> (Server, SocketAddr, Receiver<String>) {
    let (sender, endings) = channel();
    let sender = Mutex::new(sender);
    let options = ServerOptions {
        first_query,
        notify: milliseconds(1),
        ..ServerOptions::default()
    };
    let server = Server::telling(options, move |_, error| {
        let _ = sender.lock().unwrap().send(error.to_string());
    });
    server.update(data(1)).unwrap();
    let acceptor = acceptor(paths(files)).unwrap();
    let ready = move |stream| accepted(&acceptor, stream);
    let address = server.listen_with("127.0.0.1:0", ready).unwrap();
    (server, address, endings)
}

/// Two clients stall, one in the middle of a handshake, and hold nobody: another follows the data.
#[test]
fn handshakes_that_stall() {
    let _alone = alone();
    let folder = Folder::new("threads-stall");
    let (lately, by) = (now() - 60, Some(&folder.authority));
    let good = folder.files("cache", &Names::Host(NAME), lately, by);
    let router = folder.files("router", &Names::Address("127.0.0.1"), lately, by);
    let (server, address, endings) = cache_until(milliseconds(1500), &good);
    let began = Instant::now();
    let mut stalled = [Peer::connect(address), Peer::connect(address)];
    stalled[1].send(&[22, 3, 1, 2, 0, 1, 0]);
    let mut serial = 1;
    let last = client(address, NAME, &router).run(|event| {
        match event {
            Event::Data { data: now, .. } => assert_eq!(*now, data(serial)),
            other => panic!("{other:?}"),
        }
        serial += 1;
        if serial > 4 {
            return ControlFlow::Break(());
        }
        assert_eq!(server.update(data(serial)), Ok(true));
        ControlFlow::Continue(())
    });
    assert_eq!(last, Some(data(4)));
    assert!(stalled.iter_mut().all(Peer::is_closed));
    assert!(began.elapsed() >= milliseconds(1400), "they ended early");
    assert!(began.elapsed() < LATE, "they ended late");
    let slow = |text: &String| text == "the router is too slow";
    let texts = std::iter::from_fn(|| endings.recv_timeout(milliseconds(500)).ok());
    assert_eq!(texts.filter(slow).count(), 2);
}

/// A cache of another name, of nobody, or with a certificate that has expired, shows no data.
#[test]
fn certificates_of_caches() {
    let _alone = alone();
    let (folder, nobody) = (Folder::new("threads-caches"), Authority::new());
    let (by, lately, long_ago) = (Some(&folder.authority), now() - 60, now() - 7200);
    let router = folder.files("router", &Names::Address("127.0.0.1"), lately, by);
    for (file, host, from, by) in [
        ("other", "other.example", lately, by),
        ("nobody's", NAME, lately, Some(&nobody)),
        ("its own", NAME, lately, None),
        ("expired", NAME, long_ago, by),
    ] {
        let files = folder.files(file, &Names::Host(host), from, by);
        let (_server, address, _endings) = cache(&files);
        let fetched = client(address, NAME, &router).fetch();
        assert!(matches!(fetched, Err(ClientError::Io(_))), "{fetched:?}");
    }
}

/// A router that nobody knows, or whose certificate has expired, gets nothing, and others go on.
#[test]
fn certificates_of_routers() {
    let _alone = alone();
    let (folder, nobody) = (Folder::new("threads-routers"), Authority::new());
    let (by, lately, long_ago) = (Some(&folder.authority), now() - 60, now() - 7200);
    let good = folder.files("cache", &Names::Host(NAME), lately, by);
    let here = || Names::Address("127.0.0.1");
    let router = folder.files("router", &here(), lately, by);
    let (server, address, endings) = cache(&good);
    for (file, from, by) in [
        ("nobody's", lately, Some(&nobody)),
        ("its own", lately, None),
        ("expired", long_ago, by),
    ] {
        let files = folder.files(file, &here(), from, by);
        let fetched = client(address, NAME, &files).fetch();
        assert!(fetched.is_err(), "{file}: {fetched:?}");
        let mut texts = std::iter::from_fn(|| endings.recv_timeout(PATIENCE).ok());
        assert!(texts.any(|text| text.contains("certificate")), "{file}");
        assert_eq!(client(address, NAME, &router).fetch().unwrap(), data(1));
    }
    assert!(holds(|| server.clients() == 0));
}

/// A cache that never shakes hands is left after the time for a connection.
#[test]
fn a_cache_that_stalls() {
    let _alone = alone();
    let folder = Folder::new("threads-stalled");
    let (lately, by) = (now() - 60, Some(&folder.authority));
    let router = folder.files("router", &Names::Address("127.0.0.1"), lately, by);
    let listener = TcpListener::bind("127.0.0.1:0").unwrap();
    let address = listener.local_addr().unwrap();
    let connector = connector(paths(&router)).unwrap();
    let options = ClientOptions {
        dial: milliseconds(500),
        ..ClientOptions::default()
    };
    let client = Client::over(options, move |time| {
        connect(&connector, address, NAME, time)
    });
    let began = Instant::now();
    assert!(client.fetch().is_err());
    assert!(began.elapsed() < LATE, "it ends late");
}

/// A cache that renegotiates in place of an answer is left, without data.
#[test]
fn a_cache_that_renegotiates() {
    let _alone = alone();
    let folder = Folder::new("threads-renegotiates");
    let (lately, by) = (now() - 60, Some(&folder.authority));
    let good = folder.files("cache", &Names::Host(NAME), lately, by);
    let router = folder.files("router", &Names::Address("127.0.0.1"), lately, by);
    let (mut cache, address) = match OpenSsl::cache(&good) {
        Some(cache) => cache,
        None => return,
    };
    let playing = std::thread::spawn(move || {
        cache.wait(&[0, 2, 0, 0, 0, 0, 0, 8]);
        cache.takes(b"r\n");
        cache.wait(b"SSL_do_handshake");
        let all = data(1).for_version(0).unwrap();
        cache.takes(&[&peers::response(0, peers::SESSION), all.as_bytes()].concat());
        cache
    });
    let fetched = client_in(0, address, NAME, &router).fetch();
    assert!(fetched.is_err(), "{fetched:?}");
    drop(playing.join().unwrap());
}

/// A router that renegotiates is left, and others are served on.
#[test]
fn a_router_that_renegotiates() {
    let _alone = alone();
    let folder = Folder::new("threads-router");
    let (lately, by) = (now() - 60, Some(&folder.authority));
    let good = folder.files("cache", &Names::Host(NAME), lately, by);
    let router = folder.files("router", &Names::Address("127.0.0.1"), lately, by);
    let (_server, address, _endings) = cache(&good);
    let mut peer = match OpenSsl::router(address, &router) {
        Some(peer) => peer,
        None => return,
    };
    peer.wait(b"Verify return code: 0");
    peer.takes(&[2, 2, 0, 0, 0, 0, 0, 8]);
    peer.wait(data(1).as_bytes());
    peer.takes(b"R\n");
    assert!(peer.ends(), "the router goes on");
    assert_eq!(client(address, NAME, &router).fetch().unwrap(), data(1));
}
