//! The example of TLS: each side refuses certificates of another name, of nobody, and expired ones
//! (RFC 8210 section 9.2), and a handshake that stalls is ended by the limits.

mod certificates;
#[allow(dead_code)]
#[path = "../examples/tls.rs"]
mod example;
mod openssl;
#[path = "../../tests/peers/mod.rs"]
mod peers;

use self::openssl::OpenSsl;
use certificates::{now, paths, Authority, Folder, Names, NAME};
use example::{accept, acceptor, connect, connector};
use peers::{data, milliseconds, Peer, LATE, PATIENCE};
use rtr_wire::{ClientError, ClientOptions, Data, ServerOptions};
use rtr_wire_tokio::{AsyncClient, AsyncServer};
use std::io::ErrorKind;
use std::net::SocketAddr;
use std::path::PathBuf;
use std::sync::mpsc::{channel, Receiver};
use std::sync::Mutex;
use std::time::{Duration, Instant};
use tokio::net::TcpListener;
use tokio::task::spawn_blocking;
use tokio::time::timeout;

/// A cache with data over TLS, and why it ended connections.
async fn cache(
    files: &[PathBuf; 3],
    first_query: Duration,
) -> (AsyncServer, SocketAddr, Receiver<String>) {
    let (sender, endings) = channel();
    let sender = Mutex::new(sender);
    let options = ServerOptions {
        first_query,
        notify: milliseconds(1),
        ..ServerOptions::default()
    };
    let server = AsyncServer::telling(options, move |_, error| {
        let _ = sender.lock().unwrap().send(error.to_string());
    });
    server.update(data(1)).unwrap();
    let listener = TcpListener::bind("127.0.0.1:0").await.unwrap();
    let address = listener.local_addr().unwrap();
    let (serving, acceptor) = (server.clone(), acceptor(paths(files)).unwrap());
    tokio::spawn(async move {
        let ready = |stream| accept(acceptor.clone(), stream);
        serving.serve_with(listener, ready).await.unwrap();
    });
    (server, address, endings)
}

fn options() -> ClientOptions {
    ClientOptions {
        version: 2,
        dial: PATIENCE,
        ..ClientOptions::default()
    }
}

/// Returns the first result of a cache of this name.
async fn fetched(
    address: SocketAddr,
    name: &'static str,
    files: &[PathBuf; 3],
) -> Result<Data, ClientError> {
    let connector = connector(paths(files)).unwrap();
    let mut client = AsyncClient::new(options(), move || {
        connect(connector.clone(), address, name.to_string())
    });
    let fetched = timeout(PATIENCE, client.fetch()).await.expect("an answer");
    assert_eq!(client.data().is_some(), fetched.is_ok());
    fetched
}

fn is_refused(fetched: &Result<Data, ClientError>) -> bool {
    matches!(fetched, Err(ClientError::Io(error)) if error.kind() == ErrorKind::PermissionDenied)
}

/// Why the server ended the next connection that ends.
async fn next_ending(receiver: Receiver<String>) -> (Receiver<String>, String) {
    let waiting = spawn_blocking(move || {
        let text = receiver.recv_timeout(PATIENCE).expect("a connection ends");
        (receiver, text)
    });
    waiting.await.unwrap()
}

/// The files of a cache and of a router that are who they say.
fn good(folder: &Folder) -> [[PathBuf; 3]; 2] {
    let (lately, by) = (now() - 60, Some(&folder.authority));
    let cache = folder.files("cache", &Names::Host(NAME), lately, by);
    [
        cache,
        folder.files("router", &Names::Address("127.0.0.1"), lately, by),
    ]
}

/// If both ends prove their names, data come, and their changes.
#[tokio::test]
async fn data_that_change() {
    let folder = Folder::new("tls-good");
    let [good, router] = good(&folder);
    let (server, address, _receiver) = cache(&good, PATIENCE).await;
    let connector = connector(paths(&router)).unwrap();
    let mut client = AsyncClient::new(options(), move || {
        connect(connector.clone(), address, NAME.to_string())
    });
    for serial in 1..=3 {
        if serial > 1 {
            server.update(data(serial)).unwrap();
        }
        timeout(PATIENCE, client.next()).await.expect("data come");
        assert_eq!(client.data(), Some(&data(serial)));
    }
    server.stop();
}

/// The cache's certificate has another name than the requested one, or isn't trusted.
#[tokio::test]
async fn certificates_of_caches() {
    let (folder, nobody) = (Folder::new("tls-caches"), Authority::new());
    let (by, lately, long_ago) = (Some(&folder.authority), now() - 60, now() - 7200);
    let [_, router] = good(&folder);
    let rows = [
        ("other", Names::Host("other.example"), lately, by),
        ("nobody's", Names::Host(NAME), lately, Some(&nobody)),
        ("its own", Names::Host(NAME), lately, None),
        ("expired", Names::Host(NAME), long_ago, by),
        ("subject", Names::Subject(NAME), lately, by),
        ("address", Names::Address("127.0.0.1"), lately, by),
    ];
    for (file, names, from, by) in rows {
        let files = folder.files(file, &names, from, by);
        let (server, address, _receiver) = cache(&files, PATIENCE).await;
        let fetched = fetched(address, NAME, &router).await;
        assert!(is_refused(&fetched), "{file}: {fetched:?}");
        server.stop();
    }
}

/// The router isn't who it says, or comes from elsewhere. It never has data, and others go on.
#[tokio::test]
async fn certificates_of_routers() {
    let (folder, nobody) = (Folder::new("tls-routers"), Authority::new());
    let (by, lately, long_ago) = (Some(&folder.authority), now() - 60, now() - 7200);
    let [good, router] = good(&folder);
    let (server, address, mut receiver) = cache(&good, PATIENCE).await;
    let here = || Names::Address("127.0.0.1");
    let rows = [
        ("nobody's", here(), lately, Some(&nobody)),
        ("its own", here(), lately, None),
        ("expired", here(), long_ago, by),
        ("elsewhere", Names::Address("192.0.2.9"), lately, by),
        ("host", Names::Host("127.0.0.1"), lately, by),
        ("subject", Names::Subject("127.0.0.1"), lately, by),
    ];
    for (file, names, from, by) in rows {
        let files = folder.files(file, &names, from, by);
        assert!(fetched(address, NAME, &files).await.is_err(), "{file}");
        // The program may first report how the previous connection ended.
        let mut text = String::new();
        while !text.contains("certificate") {
            (receiver, text) = next_ending(receiver).await;
        }
        assert_eq!(fetched(address, NAME, &router).await.unwrap(), data(1));
    }

    // What isn't TLS is refused, too.
    let garbage = spawn_blocking(move || {
        let mut peer = Peer::connect(address);
        peer.send(&[2, 2, 0, 0, 0, 0, 0, 8]);
        let _ = std::io::copy(&mut peer.stream, &mut std::io::sink());
    });
    garbage.await.unwrap();
    let (_, text) = next_ending(receiver).await;
    assert!(!text.is_empty());
    server.stop();
}

#[tokio::test]
async fn handshakes_that_stall() {
    let folder = Folder::new("tls-stalls");
    let [good, router] = good(&folder);

    // A router that says nothing, and one that says the front of a handshake.
    let (server, address, receiver) = cache(&good, milliseconds(1500)).await;
    let began = Instant::now();
    let stalled = spawn_blocking(move || {
        let mut peers = [Peer::connect(address), Peer::connect(address)];
        peers[1].send(&[22, 3, 1, 2, 0, 1, 0]);
        assert!(peers.iter_mut().all(Peer::is_closed));
    });
    assert_eq!(fetched(address, NAME, &router).await.unwrap(), data(1));
    stalled.await.unwrap();
    assert!(began.elapsed() >= milliseconds(1400), "they ended early");
    assert!(began.elapsed() < LATE, "they ended late");
    let mut receiver = receiver;
    for _ in 0..2 {
        let text;
        (receiver, text) = next_ending(receiver).await;
        assert_eq!(text, "the router is too slow");
    }
    server.stop();

    // A cache that says nothing.
    let listener = TcpListener::bind("127.0.0.1:0").await.unwrap();
    let address = listener.local_addr().unwrap();
    let connector = connector(paths(&router)).unwrap();
    let slow = ClientOptions {
        dial: milliseconds(500),
        ..options()
    };
    let mut client = AsyncClient::new(slow, move || {
        connect(connector.clone(), address, NAME.to_string())
    });
    let began = Instant::now();
    let fetched = timeout(PATIENCE, client.fetch())
        .await
        .expect("it gives up");
    assert!(matches!(fetched, Err(ClientError::TooSlow)), "{fetched:?}");
    assert!(began.elapsed() >= milliseconds(400), "it ended early");
    assert!(began.elapsed() < LATE, "it ended late");
}

/// A cache that renegotiates in place of an answer is left, without data.
#[tokio::test]
async fn a_cache_that_renegotiates() {
    let folder = Folder::new("tls-renegotiates");
    let [good, router] = good(&folder);
    let (mut cache, address) = match OpenSsl::cache(&good) {
        Some(cache) => cache,
        None => return,
    };
    let playing = spawn_blocking(move || {
        cache.wait(&[0, 2, 0, 0, 0, 0, 0, 8]);
        cache.takes(b"r\n");
        cache.wait(b"SSL_do_handshake");
        let all = data(1).for_version(0).unwrap();
        cache.takes(&[&peers::response(0, peers::SESSION), all.as_bytes()].concat());
        cache
    });
    let lowest = ClientOptions {
        version: 0,
        ..options()
    };
    let connector = connector(paths(&router)).unwrap();
    let mut client = AsyncClient::new(lowest, move || {
        connect(connector.clone(), address, NAME.to_string())
    });
    let fetched = timeout(PATIENCE, client.fetch()).await.expect("it ends");
    assert!(fetched.is_err() && client.data().is_none(), "{fetched:?}");
    drop(playing.await.unwrap());
}

/// A router that renegotiates is left, and others are served on.
#[tokio::test]
async fn a_router_that_renegotiates() {
    let folder = Folder::new("tls-router");
    let [good, router] = good(&folder);
    let (server, address, _receiver) = cache(&good, PATIENCE).await;
    let mut peer = match OpenSsl::router(address, &router) {
        Some(peer) => peer,
        None => return,
    };
    let ended = spawn_blocking(move || {
        peer.wait(b"Verify return code: 0");
        peer.takes(&[2, 2, 0, 0, 0, 0, 0, 8]);
        peer.wait(data(1).as_bytes());
        peer.takes(b"R\n");
        peer.ends()
    });
    assert!(ended.await.unwrap(), "the router goes on");
    assert_eq!(fetched(address, NAME, &router).await.unwrap(), data(1));
    server.stop();
}
