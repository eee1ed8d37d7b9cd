//! Clients and servers of tokio and in threads, against each other and against peers that behave or
//! don't.

#[path = "../../tests/peers/mod.rs"]
mod peers;

use peers::*;
use rtr_wire::{change_line, order, Client, ClientError, ClientOptions, Data, ErrorCode, Event};
use rtr_wire::{Server, ServerError, ServerOptions, Unit, UpdateError};
use rtr_wire_tokio::{AsyncClient, AsyncServer};
use std::collections::BTreeSet;
use std::future::{pending, Future};
use std::io;
use std::net::SocketAddr;
use std::ops::ControlFlow;
use std::pin::Pin;
use std::sync::mpsc::{channel, Receiver};
use std::sync::Mutex;
use std::task::{Context, Poll};
use std::thread::{sleep, spawn, JoinHandle};
use std::time::{Duration, Instant};
use tokio::io::{AsyncRead, AsyncReadExt, AsyncWrite, AsyncWriteExt};
use tokio::io::{BufStream, DuplexStream, ReadBuf};
use tokio::net::TcpListener;
use tokio::runtime::{Builder, Runtime};
use tokio::sync::oneshot;
use tokio::time::timeout;

fn runtime() -> Runtime {
    let mut runtime = Builder::new_current_thread();
    runtime.enable_all().build().unwrap()
}

/// A server that runs in a thread, which all of its clients share.
struct Host {
    server: AsyncServer,
    address: SocketAddr,
    thread: Option<JoinHandle<()>>,
}

impl Host {
    fn new(server: AsyncServer) -> Host {
        Host::with(server, false)
    }

    /// A server whose clients' handshakes end or stall.
    fn with(server: AsyncServer, stalls: bool) -> Host {
        let (sender, address) = channel();
        let serving = server.clone();
        let thread = std::thread::Builder::new().name("rtr async".to_string());
        let thread = thread.spawn(move || {
            runtime().block_on(async {
                let listener = TcpListener::bind("127.0.0.1:0").await.unwrap();
                sender.send(listener.local_addr().unwrap()).unwrap();
                let ready = |stream| async move {
                    if stalls {
                        pending::<()>().await;
                    }
                    Ok::<tokio::net::TcpStream, io::Error>(stream)
                };
                serving.serve_with(listener, ready).await.unwrap();
            });
        });
        Host {
            server,
            address: address.recv().unwrap(),
            thread: Some(thread.unwrap()),
        }
    }

    /// A client that asks for all data gets those of this serial number.
    fn serves(&self, serial: u32) {
        let mut client = Peer::connect(self.address);
        client.send(&reset_query(2));
        assert_eq!(client.response(), data(serial).as_bytes());
    }
}

impl Drop for Host {
    fn drop(&mut self) {
        self.server.stop();
        let ended = self.thread.take().unwrap().join();
        assert!(ended.is_ok() || std::thread::panicking());
    }
}

fn client_options(version: u8) -> ClientOptions {
    ClientOptions {
        version,
        dial: PATIENCE,
        response: PATIENCE,
        pause: milliseconds(5),
        retry: Some(milliseconds(20)),
        ..ClientOptions::default()
    }
}

/// Limits that no client comes to, however busy the machine is.
fn server_options() -> ServerOptions {
    ServerOptions {
        first_query: PATIENCE,
        unit: PATIENCE,
        write: PATIENCE,
        notify: milliseconds(1),
        ..ServerOptions::default()
    }
}

/// Limits that a test can wait for, and that no client reaches if it acts at once.
fn server_limits() -> ServerOptions {
    ServerOptions {
        first_query: milliseconds(2000),
        unit: milliseconds(1000),
        write: milliseconds(2000),
        ..server_options()
    }
}

/// What a client has, by the changes that it reported.
#[derive(Default)]
struct Log {
    lines: BTreeSet<String>,
}

impl Log {
    /// The serial number of the event's data, to which its changes lead.
    fn serial(&mut self, event: &Event<'_>) -> u32 {
        let (data, changes) = match event {
            Event::Data { data, changes } => (data, changes),
            other => panic!("{other:?}"),
        };
        for unit in changes.units() {
            let line = change_line(&unit).unwrap()[2..].to_string();
            match unit.announces() {
                // An ASPA takes the place of another one.
                Some(true) => {
                    if let Unit::Aspa(_) = unit {
                        self.lines.retain(|line| !line.starts_with("ASPA"));
                    }
                    assert!(self.lines.insert(line));
                }
                _ => assert!(self.lines.remove(&line)),
            }
        }
        let lines = data.units().map(|unit| change_line(&unit).unwrap());
        assert_eq!(
            self.lines,
            lines.map(|line| line[2..].to_string()).collect()
        );
        data.end().serial
    }
}

fn data_in(serial: u32, version: u8) -> Data {
    data(serial).for_version(version).unwrap()
}

/// A client of tokio follows a server in a thread, in each version.
#[test]
fn a_server_in_a_thread() {
    let _alone = alone();
    let server = Server::new(server_options());
    let address = server.listen("127.0.0.1:0").unwrap().to_string();
    for version in 0..=2 {
        let first = u32::from(version) * 4 + 1;
        server.update(data(first)).unwrap();
        runtime().block_on(async {
            let mut client = AsyncClient::tcp(address.clone(), client_options(version));
            let mut log = Log::default();
            for serial in first..first + 4 {
                server.update(data(serial)).unwrap();
                let mut came = 0;
                while came < serial {
                    let event = timeout(PATIENCE, client.next()).await;
                    came = log.serial(&event.expect("data come"));
                }
                assert_eq!(client.data(), Some(&data_in(serial, version)));
                assert_eq!(client.fetch().await.unwrap(), data_in(serial, version));
            }
        });
    }
    drop(server);
    runtime().block_on(async {
        let mut client = AsyncClient::tcp(address, client_options(2));
        assert!(matches!(client.fetch().await, Err(ClientError::Io(_))));
        assert!(matches!(client.next().await, Event::Failed(_)));
    });
}

/// A client in a thread follows a server of tokio, in each version.
#[test]
fn a_client_in_a_thread() {
    let _alone = alone();
    let host = Host::new(AsyncServer::new(server_options()));
    for version in 0..=2 {
        let first = u32::from(version) * 4 + 1;
        host.server.update(data(first)).unwrap();
        let client = Client::new(host.address.to_string(), client_options(version));
        let (done, is_done) = channel::<()>();
        let mut log = Log::default();
        let last = std::thread::scope(|scope| {
            let client = &client;
            scope.spawn(move || {
                let _ = is_done.recv_timeout(PATIENCE);
                client.stop();
            });
            let last = client.run(|event| {
                let serial = log.serial(&event);
                if serial == first + 3 {
                    return ControlFlow::Break(());
                }
                assert_eq!(host.server.update(data(serial + 1)), Ok(true));
                ControlFlow::Continue(())
            });
            drop(done);
            last
        });
        assert_eq!(last, Some(data_in(first + 3, version)));
    }
}

/// A stream that gives and takes a byte at a time, and nothing every second time. It holds what it
/// takes until it is flushed.
struct Trickle {
    stream: BufStream<DuplexStream>,
    turns: [u32; 2],
}

impl Trickle {
    fn waits(&mut self, side: usize, cx: &mut Context<'_>) -> bool {
        self.turns[side] += 1;
        if self.turns[side] % 2 == 1 {
            cx.waker().wake_by_ref();
        }
        self.turns[side] % 2 == 1
    }
}

impl AsyncRead for Trickle {
    fn poll_read(
        mut self: Pin<&mut Self>,
        cx: &mut Context<'_>,
        buffer: &mut ReadBuf<'_>,
    ) -> Poll<io::Result<()>> {
        if self.waits(0, cx) {
            return Poll::Pending;
        }
        let mut byte = [0];
        let mut front = ReadBuf::new(&mut byte);
        let read = Pin::new(&mut self.stream).poll_read(cx, &mut front);
        buffer.put_slice(front.filled());
        read
    }
}

impl AsyncWrite for Trickle {
    fn poll_write(
        mut self: Pin<&mut Self>,
        cx: &mut Context<'_>,
        bytes: &[u8],
    ) -> Poll<io::Result<usize>> {
        if self.waits(1, cx) {
            return Poll::Pending;
        }
        Pin::new(&mut self.stream).poll_write(cx, &bytes[..1])
    }

    fn poll_flush(mut self: Pin<&mut Self>, cx: &mut Context<'_>) -> Poll<io::Result<()>> {
        if self.waits(1, cx) {
            return Poll::Pending;
        }
        Pin::new(&mut self.stream).poll_flush(cx)
    }

    fn poll_shutdown(mut self: Pin<&mut Self>, cx: &mut Context<'_>) -> Poll<io::Result<()>> {
        if self.waits(1, cx) {
            return Poll::Pending;
        }
        Pin::new(&mut self.stream).poll_shutdown(cx)
    }
}

/// Asks for the next event, with a future that is dropped each time when it has to wait, and counts
/// these.
struct Dropping<'c> {
    client: &'c mut AsyncClient<Trickle>,
    log: &'c mut Log,
    drops: &'c mut u32,
}

impl Future for Dropping<'_> {
    type Output = u32;

    fn poll(mut self: Pin<&mut Self>, cx: &mut Context<'_>) -> Poll<u32> {
        let this = &mut *self;
        let polled = {
            let next = this.client.next();
            tokio::pin!(next);
            next.poll(cx).map(|event| this.log.serial(&event))
        };
        *this.drops += u32::from(polled.is_pending());
        polled
    }
}

/// A client whose futures are all dropped at each place where they wait loses nothing: neither what
/// is read and sent a byte at a time, nor a connection that is being made.
#[test]
fn futures_that_are_dropped() {
    let _alone = alone();
    let mut drops = 0;
    for version in 0..=2 {
        runtime().block_on(async {
            let server = AsyncServer::new(server_options());
            server.update(data(1)).unwrap();
            let serving = server.clone();
            let dial = move || {
                let serving = serving.clone();
                async move {
                    let [mine, other] = {
                        let (mine, other) = tokio::io::duplex(64);
                        [mine, other].map(|stream| Trickle {
                            stream: BufStream::new(stream),
                            turns: [0; 2],
                        })
                    };
                    for _ in 0..10 {
                        tokio::task::yield_now().await;
                    }
                    let from = SocketAddr::from(([192, 0, 2, 1], 323));
                    tokio::spawn(async move { serving.serve_connection(other, from).await });
                    Ok(mine)
                }
            };
            let mut client = AsyncClient::new(client_options(version), dial);
            let mut log = Log::default();
            for serial in 1..=4 {
                server.update(data(serial)).unwrap();
                let next = Dropping {
                    client: &mut client,
                    log: &mut log,
                    drops: &mut drops,
                };
                assert_eq!(timeout(PATIENCE, next).await, Ok(serial));
                assert_eq!(client.data(), Some(&data_in(serial, version)));
            }
            assert_eq!(server.clients(), 1);
            drop(client);
        });
    }
    assert!(drops > 1000, "only {drops} futures were dropped");
}

/// A refused unit is reported, even if each future is dropped, and the client continues.
#[test]
fn a_report() {
    let _alone = alone();
    let listener = std::net::TcpListener::bind("127.0.0.1:0").unwrap();
    let address = listener.local_addr().unwrap().to_string();
    let cache = spawn(move || {
        let mut peer = Peer::of(listener.accept().unwrap().0);
        assert!(matches!(peer.unit(), Some(Unit::ResetQuery(_))));
        // A cache response of another length (RFC 8210 section 5.5).
        peer.send(&[2, 3, 0x12, 0x34, 0, 0, 0, 9, 0]);
        assert_eq!(peer.report(), Some((ErrorCode::CORRUPT_DATA, 2)));
        let mut peer = Peer::of(listener.accept().unwrap().0);
        assert!(peer.unit().is_some());
        peer.send(&[&response(2, SESSION), data(1).as_bytes()].concat());
        peer
    });
    runtime().block_on(async {
        let mut client = AsyncClient::tcp(address, client_options(2));
        assert!(matches!(client.fetch().await, Err(ClientError::Refused(_))));
        assert_eq!(client.fetch().await.unwrap(), data(1));
    });
    drop(cache.join().unwrap());
}

/// After a report what still comes is read for two seconds, since a close would take the report
/// away.
#[tokio::test(start_paused = true)]
async fn a_client_that_reads_on() {
    let (mine, mut cache) = tokio::io::duplex(1024);
    let mut mine = Some(mine);
    let mut client = AsyncClient::new(client_options(2), move || {
        let mine = mine.take();
        async move { mine.ok_or_else(|| io::ErrorKind::NotFound.into()) }
    });
    let running = tokio::spawn(async move { client.fetch().await });
    cache.read_exact(&mut [0; 8]).await.unwrap();
    cache
        .write_all(&[2, 3, 0x12, 0x34, 0, 0, 0, 9, 0])
        .await
        .unwrap();
    let mut report = Vec::new();
    cache.read_to_end(&mut report).await.unwrap();
    assert!(matches!(
        Unit::first(&report),
        Ok((Unit::ErrorReport(_), []))
    ));
    for _ in 0..2 {
        cache.write_all(&[0; 8]).await.expect("it reads on");
        tokio::time::sleep(Duration::from_millis(990)).await;
    }
    cache.write_all(&[0; 8]).await.expect("it reads on");
    tokio::time::sleep(Duration::from_millis(40)).await;
    assert!(cache.write_all(&[0; 8]).await.is_err());
    assert!(matches!(
        running.await.unwrap(),
        Err(ClientError::Refused(_))
    ));
}

/// As many clients as are allowed are served, and one more gets a report of code 1; others when one
/// has gone.
#[test]
fn too_many_clients() {
    let _alone = alone();
    let host = Host::new(AsyncServer::new(ServerOptions {
        connections: 2,
        ..server_options()
    }));
    host.server.update(data(1)).unwrap();
    let (mut staying, leaving) = (Peer::connect(host.address), Peer::connect(host.address));
    assert!(holds(|| host.server.clients() == 2));
    let full = Some((ErrorCode::INTERNAL_ERROR, 2));
    assert_eq!(Peer::connect(host.address).report(), full);
    let mut asking = Peer::connect(host.address);
    asking.try_send(&reset_query(1));
    assert_eq!(asking.report(), full);
    drop(leaving);
    assert!(holds(|| host.server.clients() == 1));
    host.serves(1);
    staying.send(&reset_query(2));
    staying.response();
}

/// A server, and the texts of why it ended connections.
fn telling(options: ServerOptions) -> (AsyncServer, Receiver<String>) {
    let (sender, endings) = channel();
    let sender = Mutex::new(sender);
    let ended = move |_, error: &ServerError| {
        let _ = sender.lock().unwrap().send(error.to_string());
    };
    (AsyncServer::telling(options, ended), endings)
}

/// Clients that stall are ended by the limits: before they ask, inside a unit, while they don't
/// read. No other waits for them.
#[test]
fn clients_that_stall() {
    let _alone = alone();
    let (server, endings) = telling(server_limits());
    let host = Host::new(server);
    host.server.update(data(1)).unwrap();
    let slow = Ok("the router is too slow");
    let silent = Peer::connect(host.address);
    let mut inside = Peer::connect(host.address);
    inside.send(&[2, 2]);
    host.serves(1);
    for _ in 0..2 {
        assert_eq!(endings.recv_timeout(PATIENCE).as_deref(), slow);
    }
    drop(silent);
    let large = data_of(SESSION, 2, u16::MAX);
    let answer = answer(&large, 1);
    host.server.update(large).unwrap();
    let mut unread: Vec<Peer> = (0..4).map(|_| Peer::connect(host.address)).collect();
    for peer in &mut unread {
        (0..40).for_each(|_| peer.try_send(&reset_query(2)));
    }
    let mut reading = Peer::connect(host.address);
    for _ in 0..3 {
        reading.send(&reset_query(1));
        assert!(reading.bytes(answer.len()) == answer, "other bytes came");
    }
    for _ in 0..4 {
        assert_eq!(endings.recv_timeout(PATIENCE).as_deref(), slow);
    }
    drop(reading);
    assert!(holds(|| host.server.clients() == 0));
}

/// A unit may begin long after the previous one: its limit counts from its first byte.
#[test]
fn a_client_that_waits() {
    let _alone = alone();
    let host = Host::new(AsyncServer::new(server_limits()));
    host.server.update(data(1)).unwrap();
    let mut client = Peer::connect(host.address);
    for wait in [1100, 1100, 0] {
        let query = reset_query(2);
        client.send(&query[..5]);
        sleep(milliseconds(50));
        client.send(&query[5..]);
        assert_eq!(client.response(), data(1).as_bytes());
        sleep(milliseconds(wait));
    }
}

/// A handshake that stalls is ended by the limit, counts as a client until then, and holds nobody.
#[test]
fn handshakes_that_stall() {
    let _alone = alone();
    let (server, endings) = telling(server_limits());
    let host = Host::with(server, true);
    let began = Instant::now();
    let mut clients: Vec<Peer> = (0..3).map(|_| Peer::connect(host.address)).collect();
    assert!(holds(|| host.server.clients() == 3));
    for _ in 0..3 {
        let text = endings.recv_timeout(PATIENCE);
        assert_eq!(text.as_deref(), Ok("the router is too slow"));
    }
    assert!(began.elapsed() >= milliseconds(1900), "they ended early");
    assert!(began.elapsed() < LATE, "they ended late");
    assert!(clients.iter_mut().all(Peer::is_closed));
    assert!(holds(|| host.server.clients() == 0));
}

/// New data cut answers that are too old, and a new session ends connections at once.
#[test]
fn answers_that_are_cut() {
    let _alone = alone();
    for (session, text) in [
        (SESSION, "the router is too far behind"),
        (7, "the data are of a new session"),
    ] {
        let (server, endings) = telling(server_options());
        let host = Host::new(server);
        host.server.update(unbuffered()).unwrap();
        // It is in the middle of an answer, most of which waits for the client.
        let mut slow = Peer::connect(host.address);
        slow.send(&reset_query(2));
        slow.bytes(1 << 16);
        for serial in 2..=3 {
            host.server.update(data(serial)).unwrap();
        }
        assert!(endings.recv_timeout(milliseconds(300)).is_err());
        if session != SESSION {
            host.server.change_session();
        }
        host.server.update(data_of(session, 4, 20)).unwrap();
        assert_eq!(endings.recv_timeout(PATIENCE).as_deref(), Ok(text));
        assert!(holds(|| host.server.clients() == 0));
    }
}

/// Fifty clients, of which some are hostile, in one thread: the others get each change.
#[test]
fn fifty_clients() {
    let _alone = alone();
    let host = Host::new(AsyncServer::new(server_options()));
    host.server.update(data(1)).unwrap();
    let address = host.address;
    let follow = move || {
        let mut client = Peer::connect(address);
        client.send(&reset_query(2));
        let mut mine = Data::from_sequence(&client.response()).unwrap();
        // One query at a time: the answer to it leads from the data that it names.
        let (mut is_asked, mut is_behind) = (false, false);
        while mine.end().serial < 4 {
            match client.unit() {
                Some(Unit::SerialNotify(_)) => is_behind = true,
                Some(Unit::CacheResponse(_)) => {
                    let changes = order(&client.sequence()).unwrap();
                    mine = mine.apply(&changes).expect("it leads from these data");
                    is_asked = false;
                }
                other => panic!("{other:?}"),
            }
            if is_behind && !is_asked {
                client.send(&serial_query(2, SESSION, mine.end().serial));
                (is_asked, is_behind) = (true, false);
            }
        }
        assert_eq!(mine, data(4));
    };
    let attack = move |number: usize| {
        let mut client = Peer::connect(address);
        match number % 4 {
            0 => client.try_send(&[2, 9, 1, 0, 0xff, 0xff, 0xff, 0xff]),
            1 => client.try_send(&[2, 2, 0]),
            2 => (0..500).for_each(|_| client.try_send(&reset_query(2))),
            _ => client.try_send(&vec![0xff; 70_000]),
        }
        sleep(milliseconds(700));
    };
    std::thread::scope(|scope| {
        for number in 0..25 {
            scope.spawn(follow);
            scope.spawn(move || attack(number));
        }
        for serial in 2..=4 {
            sleep(milliseconds(200));
            assert_eq!(host.server.update(data(serial)), Ok(true));
        }
    });
    assert!(holds(|| host.server.clients() == 0));
}

/// A server has its data after a restart, also one in a thread, and tells a client that asked
/// before it had them.
#[test]
fn restarts() {
    let _alone = alone();
    let path = std::env::temp_dir().join(format!("rtr-async-kept-{}", std::process::id()));
    let server = AsyncServer::new(server_options());
    assert_eq!(server.save_to(&path).unwrap(), None);
    server.update(data(1)).unwrap();
    server.update(data(2)).unwrap();
    drop(server);
    let host = Host::new(AsyncServer::new(server_options()));
    let mut early = Peer::connect(host.address);
    early.send(&reset_query(2));
    assert!(matches!(early.unit(), Some(Unit::ErrorReport(_))));
    assert_eq!(host.server.save_to(&path).unwrap(), Some(data(2)));
    assert!(matches!(early.unit(), Some(Unit::SerialNotify(notify)) if notify.serial == 2));
    assert_eq!(host.server.end(), Some(data(2).end()));
    let in_thread = Server::new(ServerOptions::default());
    assert_eq!(in_thread.save_to(&path).unwrap(), Some(data(2)));
    std::fs::remove_file(path).unwrap();
    let mut client = Peer::connect(host.address);
    client.send(&serial_query(2, SESSION, 1));
    let changes = order(&client.response()).unwrap();
    assert_eq!(data(1).apply(&changes).unwrap(), data(2));
}

/// Data that can't be saved aren't served until a retry saves them; then clients are notified.
#[test]
fn saves_that_fail() {
    let _alone = alone();
    let folder = std::env::temp_dir().join(format!("rtr-async-fail-{}", std::process::id()));
    std::fs::create_dir(&folder).unwrap();
    let path = folder.join("kept");
    let host = Host::new(AsyncServer::new(server_options()));
    assert_eq!(host.server.save_to(&path).unwrap(), None);
    assert_eq!(host.server.update(data(1)), Ok(true));
    let mut client = Peer::connect(host.address);
    client.send(&reset_query(2));
    assert_eq!(client.response(), data(1).as_bytes());
    // A folder has the name of the new file, so that it can't be written.
    let blocked = folder.join("kept.new");
    std::fs::create_dir(&blocked).unwrap();
    for serial in [2, 3] {
        let refused = host.server.update(data(serial));
        assert!(matches!(refused, Err(UpdateError::NotSaved(_))));
        assert_eq!(host.server.end(), Some(data(1).end()));
    }
    std::fs::remove_dir(&blocked).unwrap();
    let notify = client.unit();
    assert!(matches!(notify, Some(Unit::SerialNotify(notify)) if notify.serial == 3));
    assert_eq!(host.server.end(), Some(data(3).end()));
    assert!(holds(|| threads("rtr save") == 0));
    // A server that stops retries no longer.
    std::fs::create_dir(&blocked).unwrap();
    assert!(host.server.update(data(4)).is_err());
    assert!(holds(|| threads("rtr save") == 1));
    host.server.stop();
    assert!(holds(|| threads("rtr save") == 0));
    std::fs::remove_dir_all(folder).unwrap();
}

/// A server that stops closes its connections, also in the middle of answers.
#[test]
fn stops() {
    let _alone = alone();
    let host = Host::new(AsyncServer::new(server_options()));
    host.server.update(data_of(SESSION, 1, u16::MAX)).unwrap();
    let mut clients = Vec::new();
    for _ in 0..10 {
        let mut client = Peer::connect(host.address);
        (0..20).for_each(|_| client.try_send(&reset_query(2)));
        clients.push(client.stream);
    }
    sleep(milliseconds(100));
    let began = Instant::now();
    drop(host);
    assert!(began.elapsed() < LATE);
    for mut client in clients {
        let _ = io::copy(&mut client, &mut io::sink());
    }
}

/// While nothing comes neither a server nor a client wakes, and there is one thread for all.
#[test]
fn no_thread_wakes() {
    let _alone = alone();
    let host = Host::new(AsyncServer::new(ServerOptions {
        first_query: HOUR,
        unit: HOUR,
        write: HOUR,
        ..ServerOptions::default()
    }));
    host.server.update(data_of(SESSION, 1, u16::MAX)).unwrap();
    let before = std::fs::read_dir("/proc/self/task").unwrap().count();
    let mut clients: Vec<Peer> = (0..20).map(|_| Peer::connect(host.address)).collect();
    let (slow, idle) = clients.split_at_mut(2);
    for client in slow {
        (0..40).for_each(|_| client.try_send(&reset_query(2)));
        client.is_sent_to();
    }
    for client in idle.iter_mut().skip(5) {
        client.send(&reset_query(1));
        client.response();
        client.send(&[1, 1]);
    }
    assert!(holds(|| host.server.clients() == 20));
    assert_eq!(
        std::fs::read_dir("/proc/self/task").unwrap().count(),
        before
    );
    let address = host.address.to_string();
    let (end, ended) = oneshot::channel();
    let client = std::thread::Builder::new().name("rtr waiting".to_string());
    let client = client.spawn(move || {
        runtime().block_on(async {
            let options = ClientOptions {
                refresh: Some(Duration::from_secs(600)),
                ..client_options(2)
            };
            let mut client = AsyncClient::tcp(address, options);
            client.fetch().await.unwrap();
            tokio::select! {
                _ = ended => {}
                step = client.next() => panic!("{step:?}"),
            }
        });
    });
    let client = client.unwrap();
    assert!(holds(|| host.server.clients() == 21));
    assert!(stay_asleep(&["rtr async", "rtr waiting"]));
    end.send(()).unwrap();
    client.join().unwrap();
}
