//! Clients of tokio that ask before it is time, and what clients and caches tell their logs.

#[path = "../../tests/peers/mod.rs"]
mod peers;

use peers::*;
use rtr_wire::*;
use rtr_wire_tokio::{AsyncClient, AsyncServer};
use std::fmt::Write;
use std::sync::mpsc::channel;
use std::sync::{Arc, Mutex};
use tokio::io::{duplex, AsyncReadExt, AsyncWriteExt, DuplexStream};
use tokio::net::TcpListener;
use tokio::time::timeout;

/// A whole answer to a reset query, or to a serial query.
fn answer(sequence: &[u8]) -> Vec<u8> {
    [&response(2, SESSION), sequence].concat()
}

async fn expect(cache: &mut DuplexStream, query: &[u8]) {
    let mut came = vec![0; query.len()];
    cache.read_exact(&mut came).await.unwrap();
    assert_eq!(came, query);
}

/// It asks while it waits, and not before the pause.
#[tokio::test(start_paused = true)]
async fn a_client_that_waits() {
    let (ours, mut cache) = duplex(1 << 16);
    let mut ours = Some(ours);
    let options = ClientOptions {
        version: 2,
        ..ClientOptions::default()
    };
    let mut client = AsyncClient::new(options, move || {
        let stream = ours.take().expect("it connects once");
        async { Ok(stream) }
    });
    let playing = tokio::spawn(async move {
        expect(&mut cache, &reset_query(2)).await;
        cache.write_all(&answer(data(1).as_bytes())).await.unwrap();
        expect(&mut cache, &serial_query(2, SESSION, 1)).await;
        let changes = data(1).delta_to(&data(2)).unwrap();
        cache.write_all(&answer(changes.as_bytes())).await.unwrap();
        cache
    });
    assert!(matches!(client.next().await, Event::Data { .. }));
    // The future is dropped, and nothing of it is lost.
    let minute = milliseconds(60_000);
    assert!(timeout(minute, client.next()).await.is_err());
    client.ask_now();
    let began = tokio::time::Instant::now();
    assert!(matches!(client.next().await, Event::Data { .. }));
    assert!(began.elapsed() < minute);
    assert_eq!(client.data(), Some(&data(2)));
    drop(playing.await.unwrap());
}

/// A query has its time limit also after a longer wait: a cache that falls silent is left.
#[tokio::test(start_paused = true)]
async fn a_cache_that_falls_silent() {
    let (ours, mut cache) = duplex(1 << 16);
    let mut ours = Some(ours);
    let options = ClientOptions {
        version: 2,
        ..ClientOptions::default()
    };
    let mut client = AsyncClient::new(options, move || {
        let stream = ours.take().expect("it connects once");
        async { Ok(stream) }
    });
    cache.write_all(&answer(data(1).as_bytes())).await.unwrap();
    assert!(matches!(client.next().await, Event::Data { .. }));
    // It would wait for the refresh time of an hour.
    assert!(timeout(milliseconds(60_000), client.next()).await.is_err());
    client.ask_now();
    let began = tokio::time::Instant::now();
    match client.next().await {
        Event::Failed(error) => assert!(matches!(error, ClientError::TooSlow), "{error:?}"),
        other => panic!("{other:?}"),
    }
    assert_eq!(began.elapsed().as_secs(), 120);
}

/// A cache that has no data yet is an error of its own, whether the client follows it or loads data
/// once, and is asked again.
#[tokio::test(start_paused = true)]
async fn a_cache_without_data() {
    let report = bytes_of(&Unit::ErrorReport(ErrorReport::<&[u8]> {
        version: 2,
        code: ErrorCode::NO_DATA_AVAILABLE,
        parts: None,
    }));
    let (ours, mut cache) = duplex(1 << 16);
    let mut ours = Some(ours);
    let options = ClientOptions {
        version: 2,
        ..ClientOptions::default()
    };
    let mut client = AsyncClient::new(options, move || {
        let stream = ours.take().expect("it connects once");
        async { Ok(stream) }
    });
    let playing = tokio::spawn(async move {
        for answer in [&report, &report, &answer(data(1).as_bytes())] {
            expect(&mut cache, &reset_query(2)).await;
            cache.write_all(answer).await.unwrap();
        }
        cache
    });
    match client.next().await {
        Event::Failed(ClientError::NoData(report)) => {
            assert_eq!(report.code, ErrorCode::NO_DATA_AVAILABLE);
        }
        other => panic!("{other:?}"),
    }
    assert!(matches!(client.fetch().await, Err(ClientError::NoData(_))));
    assert_eq!(client.fetch().await.unwrap(), data(1));
    drop(playing.await.unwrap());
}

/// If connections can't be made, it makes the next one after a pause, not when its time comes,
/// which grows.
#[tokio::test(start_paused = true)]
async fn a_client_that_is_refused() {
    let options = ClientOptions {
        pause: milliseconds(1000),
        ..ClientOptions::default()
    };
    let mut client = AsyncClient::<DuplexStream>::new(options, || async {
        Err(std::io::ErrorKind::ConnectionRefused.into())
    });
    let began = tokio::time::Instant::now();
    for _ in 0..10 {
        assert!(matches!(client.next().await, Event::Failed(_)));
        client.ask_now();
    }
    assert!(began.elapsed() <= milliseconds(10_000));
}

/// Nobody sees data that have expired (RFC 8210 section 6), also where the client didn't go on.
#[tokio::test(start_paused = true)]
async fn data_that_have_expired() {
    let (ours, mut cache) = duplex(1 << 16);
    let mut ours = Some(ours);
    let options = ClientOptions {
        version: 2,
        ..ClientOptions::default()
    };
    let mut client = AsyncClient::new(options, move || {
        let stream = ours.take().expect("it connects once");
        async { Ok(stream) }
    });
    cache.write_all(&answer(data(1).as_bytes())).await.unwrap();
    assert_eq!(client.fetch().await.unwrap(), data(1));
    tokio::time::advance(milliseconds(7_199_000)).await;
    assert_eq!(client.data(), Some(&data(1)));
    assert_eq!(client.fetch().await.unwrap(), data(1));
    tokio::time::advance(milliseconds(1_000)).await;
    assert_eq!(client.data(), None);
    assert!(matches!(client.fetch().await, Err(ClientError::Expired)));
}

/// The lines of a log, without addresses.
#[derive(Clone, Default)]
struct Lines(Arc<Mutex<Vec<String>>>);

impl Lines {
    fn add(&self, level: LogLevel, message: &str, fields: &LogFields<'_>) {
        let mut line = format!("{level:?} {message}");
        for (name, value) in fields.iter().filter(|(name, _)| *name != "client") {
            write!(line, " {name}={value}").unwrap();
        }
        self.0.lock().unwrap().push(line);
    }
}

#[tokio::test]
async fn logs() {
    let (ours, theirs) = (Lines::default(), Lines::default());
    let (to_ours, to_theirs) = (ours.clone(), theirs.clone());
    let server = AsyncServer::logging(ServerOptions::default(), move |level, message, fields| {
        to_theirs.add(level, message, fields);
    });
    server.update(data(1)).unwrap();
    let listener = TcpListener::bind("127.0.0.1:0").await.unwrap();
    let address = listener.local_addr().unwrap().to_string();
    let serving = server.clone();
    let serving = tokio::spawn(async move { serving.serve(listener).await });
    let options = ClientOptions {
        version: 2,
        ..ClientOptions::default()
    };
    let client = AsyncClient::tcp(address, options);
    let mut client = client.with_log(move |level, message, fields| {
        to_ours.add(level, message, fields);
    });
    assert_eq!(client.fetch().await.unwrap(), data(1));
    server.stop();
    serving.await.unwrap().unwrap();
    assert!(matches!(client.next().await, Event::Failed(_)));
    let payloads = data(1).len();
    let has = format!("Info data session=4660 serial=1 version=2 payloads={payloads}");
    let gets = format!("{has} changes={payloads}");
    let failed = "Warn failed error=the cache closed the connection";
    assert_eq!(*ours.0.lock().unwrap(), ["Debug connected", &gets, failed]);
    assert_eq!(*theirs.0.lock().unwrap(), [&has, "Debug connected"]);
}

/// A server logs the address of each client that connects, and of one whose connection it ends.
#[tokio::test]
async fn addresses_in_a_log() {
    let lines = Arc::new(Mutex::new(Vec::new()));
    let told = Arc::clone(&lines);
    let server = AsyncServer::logging(ServerOptions::default(), move |_, message, fields| {
        let (name, value) = fields[0];
        let line = format!("{message} {name}={value}");
        told.lock().unwrap().push(line);
    });
    let (mut client, stream) = duplex(1000);
    let from = ([192, 0, 2, 1], 323).into();
    let serving = tokio::spawn(async move { server.serve_connection(stream, from).await });
    client.write_all(&response(2, SESSION)).await.unwrap();
    client.read_to_end(&mut Vec::new()).await.unwrap();
    drop(client);
    serving.await.unwrap();
    let wanted = [
        "connected client=192.0.2.1:323",
        "ended client=192.0.2.1:323",
    ];
    assert_eq!(*lines.lock().unwrap(), wanted);
}

/// A server logs each retry of a save that fails.
#[tokio::test]
async fn retries_in_a_log() {
    let (sender, logged) = channel();
    let sender = Mutex::new(sender);
    let server = AsyncServer::logging(ServerOptions::default(), move |level, message, fields| {
        let (name, value) = fields[0];
        let line = format!("{level:?} {message} {name}={value}");
        let _ = sender.lock().unwrap().send(line);
    });
    let folder = std::env::temp_dir().join(format!("rtr-async-log-{}", std::process::id()));
    std::fs::create_dir(&folder).unwrap();
    server.save_to(folder.join("kept")).unwrap();
    // A folder has the name of the new file, so that it can't be written.
    let blocked = folder.join("kept.new");
    std::fs::create_dir(&blocked).unwrap();
    let failure = std::fs::File::create(&blocked).unwrap_err();
    assert!(server.update(data(1)).is_err());
    let line = format!("Warn not saved error={failure}");
    assert_eq!(logged.recv_timeout(PATIENCE), Ok(line));
    server.stop();
    std::fs::remove_dir_all(folder).unwrap();
}
