//! Caches by preference in one task, by a clock that stands while there is something to do.

#[path = "../../tests/peers/mod.rs"]
mod peers;

use peers::*;
use rtr_wire::{Changes, ClientError, ClientOptions, Data, Event, Group, GroupSettings};
use rtr_wire::{ServerOptions, TooManyMembers};
use rtr_wire_tokio::{AsyncClient, AsyncGroup, AsyncServer};
use std::future::{pending, Future};
use std::io::{self, ErrorKind};
use std::net::{Ipv4Addr, SocketAddr};
use std::pin::Pin;
use std::sync::{Arc, Mutex};
use std::task::{Context, Poll};
use std::time::Duration;
use tokio::io::{duplex, DuplexStream};
use tokio::time::{timeout, Instant};

/// How a cache answers a client that connects.
#[derive(Clone)]
enum Listener {
    Refuses,
    /// No connection is made.
    Stalls,
    Serves(AsyncServer),
}

type Shared = Arc<Mutex<Listener>>;

fn listener(listener: Listener) -> Shared {
    Arc::new(Mutex::new(listener))
}

fn cache(data: Data) -> AsyncServer {
    let server = AsyncServer::new(ServerOptions::default());
    server.update(data).unwrap();
    server
}

async fn dial(listener: Listener) -> io::Result<DuplexStream> {
    match listener {
        Listener::Refuses => Err(ErrorKind::ConnectionRefused.into()),
        Listener::Stalls => pending().await,
        Listener::Serves(server) => {
            let (client, stream) = duplex(100);
            let from = SocketAddr::from((Ipv4Addr::LOCALHOST, 0));
            tokio::spawn(async move { server.serve_connection(stream, from).await });
            Ok(client)
        }
    }
}

fn client(listener: &Shared) -> AsyncClient<DuplexStream> {
    let listener = Arc::clone(listener);
    let options = ClientOptions {
        version: 2,
        ..ClientOptions::default()
    };
    AsyncClient::with_random(options, 0, move || dial(listener.lock().unwrap().clone()))
}

/// The next event with data: the member, the data and what changed. Failures are counted.
async fn shown(
    group: &mut AsyncGroup<DuplexStream>,
    failures: &mut Vec<usize>,
) -> (usize, Data, Changes) {
    loop {
        match group.next().await {
            (member, Event::Data { data, changes }) => {
                return (member, data.clone(), changes.clone())
            }
            (member, Event::Failed(_)) => failures.push(member),
            other => panic!("{other:?}"),
        }
    }
}

/// The first of two caches comes and goes: while it is away, the data of the second are shown. The
/// changes lead from the data of one to those of the other, even if their sessions differ.
#[tokio::test(start_paused = true)]
async fn the_first_that_answers() {
    let (first, second) = (listener(Listener::Refuses), data_of(9, 3, 25));
    let backup = cache(second.clone());
    let listeners = [&first, &listener(Listener::Serves(backup.clone()))];
    let mut group = AsyncGroup::new(listeners.map(client)).unwrap();
    assert_eq!(group.data(), None);
    let mut failures = Vec::new();
    let (member, data, changes) = shown(&mut group, &mut failures).await;
    assert_eq!((member, &data), (1, &second));
    let none = Data::new(2, 9, 3, None).unwrap();
    assert_eq!(changes, none.delta_to(&second).unwrap());
    assert_eq!(
        (failures.first(), group.data()),
        (Some(&0), Some((1, &second)))
    );
    for serial in [7, 8] {
        let server = cache(data_of(SESSION, serial, 30));
        *first.lock().unwrap() = Listener::Serves(server.clone());
        let (member, data, changes) = shown(&mut group, &mut failures).await;
        assert_eq!((member, data.end().serial), (0, serial));
        let old = second.numbered(SESSION, serial);
        assert_eq!(changes, old.delta_to(&data).unwrap());
        // The second isn't needed any more: the next call of the group ends it.
        assert_eq!(backup.clients(), 1);
        assert!(timeout(Duration::from_secs(1), group.next()).await.is_err());
        assert_eq!((backup.clients(), server.clients()), (0, 1));
        *first.lock().unwrap() = Listener::Refuses;
        server.stop();
        let (member, data, changes) = shown(&mut group, &mut failures).await;
        assert_eq!((member, &data), (1, &second));
        let old = data_of(SESSION, serial, 30).numbered(9, 3);
        assert_eq!(changes, old.delta_to(&second).unwrap());
    }
    assert!(failures.iter().all(|member| *member == 0));
    drop(group);
    tokio::time::sleep(Duration::from_secs(1)).await;
    assert_eq!(backup.clients(), 0);
}

/// All caches after one that answers are left.
#[tokio::test(start_paused = true)]
async fn all_that_are_left() {
    let (first, last) = (listener(Listener::Refuses), cache(data_of(9, 3, 25)));
    let others = [Listener::Refuses, Listener::Serves(last.clone())].map(listener);
    let listeners = [&first, &others[0], &others[1]];
    let mut group = AsyncGroup::new(listeners.map(client)).unwrap();
    let mut failures = Vec::new();
    assert_eq!(shown(&mut group, &mut failures).await.0, 2);
    *first.lock().unwrap() = Listener::Serves(cache(data(1)));
    assert_eq!(shown(&mut group, &mut failures).await.0, 0);
    // The next call of the group leaves them.
    assert_eq!(last.clients(), 1);
    assert!(timeout(Duration::from_secs(1), group.next()).await.is_err());
    assert_eq!(last.clients(), 0);
}

/// A cache that is silent costs the patience.
#[tokio::test(start_paused = true)]
async fn a_silent_cache() {
    let second = data_of(9, 3, 25);
    let listeners = [
        listener(Listener::Stalls),
        listener(Listener::Serves(cache(second.clone()))),
    ];
    let settings = GroupSettings {
        patience: Duration::from_millis(700),
        ..GroupSettings::default()
    };
    let mut group = AsyncGroup::with_settings(settings, listeners.iter().map(client)).unwrap();
    let began = Instant::now();
    let (member, data, _) = shown(&mut group, &mut Vec::new()).await;
    assert_eq!((member, data), (1, second));
    assert_eq!(began.elapsed(), settings.patience);
}

/// An empty answer is a failure, but data of the only cache.
#[tokio::test(start_paused = true)]
async fn empty_answers() {
    let empty = Data::new(2, SESSION, 7, None).unwrap();
    let second = data_of(9, 3, 25);
    let listeners =
        [empty.clone(), second.clone()].map(|data| listener(Listener::Serves(cache(data))));
    let mut group = AsyncGroup::new(listeners.iter().map(client)).unwrap();
    assert!(matches!(
        group.next().await,
        (0, Event::Failed(ClientError::Empty))
    ));
    let (member, data, _) = shown(&mut group, &mut Vec::new()).await;
    assert_eq!((member, data), (1, second));
    let mut alone = AsyncGroup::new([client(&listeners[0])]).unwrap();
    let (member, data, changes) = shown(&mut alone, &mut Vec::new()).await;
    assert_eq!((member, data, changes.len()), (0, empty, 0));
}

/// Data that expire while no cache answers are dropped.
#[tokio::test(start_paused = true)]
async fn expired() {
    let (first, data) = (listener(Listener::Refuses), data(5));
    let server = cache(data.clone());
    *first.lock().unwrap() = Listener::Serves(server.clone());
    let listeners = [first, listener(Listener::Refuses)];
    let mut group = AsyncGroup::new(listeners.iter().map(client)).unwrap();
    shown(&mut group, &mut Vec::new()).await;
    let began = Instant::now();
    *listeners[0].lock().unwrap() = Listener::Refuses;
    server.stop();
    loop {
        match group.next().await {
            (_, Event::Failed(_)) => {}
            (0, Event::Dropped { changes }) => {
                let none = Data::new(2, SESSION, 5, None).unwrap();
                assert_eq!(*changes, data.delta_to(&none).unwrap());
                break;
            }
            other => panic!("{other:?}"),
        }
    }
    assert_eq!((began.elapsed().as_secs(), group.data()), (7200, None));
}

/// Nobody sees data that have expired, also where the group didn't go on.
#[tokio::test(start_paused = true)]
async fn expired_while_nothing_runs() {
    let listeners = [listener(Listener::Serves(cache(data(5))))];
    let mut group = AsyncGroup::new(listeners.iter().map(client)).unwrap();
    shown(&mut group, &mut Vec::new()).await;
    tokio::time::advance(milliseconds(7_199_000)).await;
    assert_eq!(group.data(), Some((0, &data(5))));
    tokio::time::advance(milliseconds(1_000)).await;
    assert_eq!(group.data(), None);
}

/// A request goes to each member that runs: the second asks before it is time, too.
#[tokio::test(start_paused = true)]
async fn requests() {
    let options = ServerOptions {
        notify: HOUR,
        ..ServerOptions::default()
    };
    let server = AsyncServer::new(options);
    server.update(data_of(9, 1, 20)).unwrap();
    let listeners = [
        listener(Listener::Refuses),
        listener(Listener::Serves(server.clone())),
    ];
    let mut group = AsyncGroup::new(listeners.iter().map(client)).unwrap();
    shown(&mut group, &mut Vec::new()).await;
    // A notify announces the second data, and none comes within the next hour.
    server.update(data_of(9, 2, 20)).unwrap();
    shown(&mut group, &mut Vec::new()).await;
    server.update(data_of(9, 3, 20)).unwrap();
    group.ask_now();
    let began = Instant::now();
    let (member, data, _) = shown(&mut group, &mut Vec::new()).await;
    assert_eq!((member, data), (1, data_of(9, 3, 20)));
    let time = began.elapsed();
    assert!(time < Duration::from_secs(60), "{time:?}");
}

/// Asks for the next event, with a future that is dropped each time when it has to wait.
struct Dropping<'g>(&'g mut AsyncGroup<DuplexStream>);

impl Future for Dropping<'_> {
    type Output = Option<u32>;

    fn poll(mut self: Pin<&mut Self>, cx: &mut Context<'_>) -> Poll<Option<u32>> {
        let next = self.0.next();
        tokio::pin!(next);
        next.poll(cx).map(|(_, event)| match event {
            Event::Data { data, .. } => Some(data.end().serial),
            _ => None,
        })
    }
}

/// A group whose futures are all dropped where they wait loses nothing.
#[tokio::test(start_paused = true)]
async fn futures_that_are_dropped() {
    let server = cache(data_of(9, 1, 500));
    let listeners = [
        listener(Listener::Refuses),
        listener(Listener::Serves(server.clone())),
    ];
    let mut group = AsyncGroup::new(listeners.iter().map(client)).unwrap();
    for serial in 1..=5 {
        server.update(data_of(9, serial, 500)).unwrap();
        group.ask_now();
        while Dropping(&mut group).await != Some(serial) {}
        assert_eq!(group.data(), Some((1, &data_of(9, serial, 500))));
    }
}

/// The waits for a cache continue to grow where its client is stopped and started again
/// (`docs/SESSIONS.md`, "Caches by preference"): each run fails twice, so the first wait of the
/// next one is four times as long.
#[tokio::test(start_paused = true)]
async fn waits_that_go_on() {
    let first = listener(Listener::Refuses);
    let often = ClientOptions {
        pause: milliseconds(5),
        retry: Some(milliseconds(20)),
        ..ClientOptions::default()
    };
    let shared = Arc::clone(&first);
    let returning =
        AsyncClient::with_random(often, 0, move || dial(shared.lock().unwrap().clone()));
    let dials: Arc<Mutex<Vec<Instant>>> = Arc::default();
    let dialed = Arc::clone(&dials);
    let refused = AsyncClient::with_random(ClientOptions::default(), 0, move || {
        dialed.lock().unwrap().push(Instant::now());
        dial(Listener::Refuses)
    });
    let mut group = AsyncGroup::new([returning, refused]).unwrap();
    for (serial, seconds) in [(5, 1), (6, 4), (7, 16)] {
        while dials.lock().unwrap().len() < 2 {
            assert!(matches!(group.next().await, (_, Event::Failed(_))));
        }
        let times = std::mem::take(&mut *dials.lock().unwrap());
        assert_eq!(times[1] - times[0], Duration::from_secs(seconds));
        let server = cache(data(serial));
        *first.lock().unwrap() = Listener::Serves(server.clone());
        assert_eq!(shown(&mut group, &mut Vec::new()).await.0, 0);
        *first.lock().unwrap() = Listener::Refuses;
        server.stop();
    }
}

/// Too many caches are refused; without any nothing happens.
#[tokio::test(start_paused = true)]
async fn how_many() {
    let clients = (0..=Group::MOST).map(|_| client(&listener(Listener::Refuses)));
    assert_eq!(AsyncGroup::new(clients).err(), Some(TooManyMembers));
    let mut none = AsyncGroup::new(std::iter::empty::<AsyncClient<DuplexStream>>()).unwrap();
    assert!(timeout(HOUR, none.next()).await.is_err());
}
