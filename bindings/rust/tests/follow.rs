//! Two caches by preference.
#![cfg(feature = "std")]

mod common;
mod peers;
mod played;

use peers::*;
use played::options;
use rtr_wire::*;
use std::io::{self, ErrorKind};
use std::net::{SocketAddr, TcpListener, TcpStream};
use std::ops::ControlFlow;
use std::sync::mpsc::channel;
use std::sync::{Arc, Mutex};
use std::thread;
use std::time::{Duration, Instant};

/// The time limit of a scene, also on a busy machine.
const ENOUGH: Duration = Duration::from_secs(300);

/// The address of a cache while it can be reached.
type Address = Arc<Mutex<Option<SocketAddr>>>;

fn client(address: &Address, options: ClientOptions) -> Arc<Client> {
    let address = Arc::clone(address);
    Arc::new(Client::over(options, move |_| {
        let current: Option<SocketAddr> = *address.lock().unwrap();
        let current = current.ok_or_else(|| io::Error::from(ErrorKind::ConnectionRefused))?;
        let stream = TcpStream::connect(current)?;
        stream.set_nonblocking(true)?;
        Ok(stream)
    }))
}

fn cache(address: &Address, data: Data) -> Server {
    let server = Server::new(ServerOptions::default());
    assert_eq!(server.update(data), Ok(true));
    let listening = server.listen("127.0.0.1:0").expect("a port is free");
    *address.lock().unwrap() = Some(listening);
    server
}

/// Fails a scene that doesn't end in time.
fn in_time(scene: impl FnOnce() + Send + 'static) {
    let (sender, receiver) = channel();
    let running = thread::spawn(move || {
        scene();
        sender.send(()).unwrap();
    });
    match receiver.recv_timeout(ENOUGH) {
        Err(std::sync::mpsc::RecvTimeoutError::Timeout) => panic!("it hangs"),
        _ => running.join().expect("the scene is as it has to be"),
    }
}

/// The first cache of two, which starts and stops as the events come.
struct Scene {
    first: Address,
    server: Option<Server>,
    second: Data,
    /// The data that were used, in order.
    shown: Vec<(usize, u32)>,
    /// How often the first has failed since then.
    failed: usize,
}

impl Scene {
    fn tell(&mut self, member: usize, event: &Event<'_>) -> ControlFlow<()> {
        match event {
            Event::Data { data, changes } => self.show(member, data, changes),
            Event::Failed(_) => {
                assert_eq!(member, 0, "the second cache is always there");
                self.failed += 1;
                ControlFlow::Continue(())
            }
            other => panic!("{other:?}"),
        }
    }

    fn show(&mut self, member: usize, data: &Data, changes: &Changes) -> ControlFlow<()> {
        self.shown.push((member, data.end().serial));
        let count = self.shown.len();
        match count {
            1 => {
                assert!(self.failed > 0, "the first was asked before");
                assert_eq!((member, data), (1, &self.second));
                self.server = Some(cache(&self.first, data_of(SESSION, 7, 30)));
            }
            2 => {
                let old = self.second.numbered(SESSION, 7);
                assert_eq!(*changes, old.delta_to(data).unwrap());
                assert_eq!(old.apply(changes).as_ref(), Ok(data));
                *self.first.lock().unwrap() = None;
                self.server.take().expect("it is there").stop();
            }
            // The data of the first haven't expired, but the second has a whole answer.
            3 => {
                let old = data_of(SESSION, 7, 30).numbered(9, 3);
                assert_eq!(*changes, old.delta_to(data).unwrap());
                self.server = Some(cache(&self.first, data_of(SESSION, 8, 30)));
            }
            _ => {
                let old = self.second.numbered(SESSION, 8);
                assert_eq!(*changes, old.delta_to(data).unwrap());
            }
        }
        self.failed = 0;
        match count {
            4 => ControlFlow::Break(()),
            _ => ControlFlow::Continue(()),
        }
    }
}

#[test]
fn the_first_that_answers() {
    in_time(|| {
        let addresses = [Address::default(), Address::default()];
        let second = data_of(9, 3, 25);
        let _second = cache(&addresses[1], second.clone());
        let mut scene = Scene {
            first: Arc::clone(&addresses[0]),
            server: None,
            second,
            shown: Vec::new(),
            failed: 0,
        };
        let clients = |member: usize| client(&addresses[member], options());
        let data = follow(2, clients, |member, event| scene.tell(member, &event)).unwrap();
        assert_eq!(scene.shown, [(1, 3), (0, 7), (1, 3), (0, 8)]);
        assert_eq!(data, Some(data_of(SESSION, 8, 30)));
    });
}

/// Follows caches until data of the second are used.
fn until_second(
    settings: GroupSettings,
    addresses: &[Address],
    on: impl FnMut(&Event<'_>),
) -> Data {
    let mut on = on;
    let clients = |member: usize| client(&addresses[member], options());
    let data = follow_with(settings, addresses.len(), clients, |member, event| {
        on(&event);
        match event {
            Event::Data { .. } if member == 1 => ControlFlow::Break(()),
            _ => ControlFlow::Continue(()),
        }
    });
    data.unwrap().expect("there are data")
}

/// All caches after one that answers are left.
#[test]
fn all_that_are_left() {
    in_time(|| {
        let addresses = [Address::default(), Address::default(), Address::default()];
        let last = cache(&addresses[2], data_of(9, 3, 25));
        let preferred = Mutex::new(None);
        let clients = |member: usize| {
            let client = client(&addresses[member], options());
            if member == 0 {
                *preferred.lock().unwrap() = Some(Arc::clone(&client));
            }
            client
        };
        let (sender, members) = channel();
        let on = move |member: usize, event: Event<'_>| {
            if matches!(event, Event::Data { .. }) {
                sender.send(member).unwrap();
            }
            ControlFlow::Continue(())
        };
        thread::scope(|scope| {
            let following = scope.spawn(|| follow(3, clients, on));
            assert_eq!(members.recv(), Ok(2));
            let _first = cache(&addresses[0], data(1));
            assert_eq!(members.recv(), Ok(0));
            let are_left = holds(|| last.clients() == 0);
            preferred.lock().unwrap().take().expect("it runs").stop();
            assert_eq!(following.join().unwrap().unwrap(), Some(data(1)));
            assert!(are_left, "the last one isn't");
        });
    });
}

/// The next cache is asked after the patience if the first is silent.
#[test]
fn a_silent_cache() {
    in_time(|| {
        let addresses = [Address::default(), Address::default()];
        let silent = TcpListener::bind("127.0.0.1:0").unwrap();
        *addresses[0].lock().unwrap() = Some(silent.local_addr().unwrap());
        let _second = cache(&addresses[1], data_of(9, 3, 25));
        let settings = GroupSettings {
            patience: milliseconds(500),
            ..GroupSettings::default()
        };
        let began = Instant::now();
        let data = until_second(settings, &addresses, |event| {
            assert!(matches!(event, Event::Data { .. }));
        });
        assert_eq!(data, data_of(9, 3, 25));
        assert!(began.elapsed() >= settings.patience);
    });
}

/// Each silent cache costs one patience, whenever that begins.
#[test]
fn silent_caches() {
    in_time(|| {
        let silent = TcpListener::bind("127.0.0.1:0").unwrap();
        let address = Address::default();
        *address.lock().unwrap() = Some(silent.local_addr().unwrap());
        let settings = GroupSettings {
            patience: milliseconds(1000),
            ..GroupSettings::default()
        };
        let third = Address::default();
        let _third = cache(&third, data_of(9, 3, 25));
        let addresses = [&address, &address, &third];
        let began = Stamp::now();
        let mut starts = Vec::new();
        let clients = |member: usize| {
            starts.push(Stamp::now());
            client(addresses[member], options())
        };
        let data = follow_with(settings, 3, clients, |member, event| {
            assert!(matches!(event, Event::Data { .. }) && member == 2);
            ControlFlow::Break(())
        });
        assert_eq!(data.unwrap(), Some(data_of(9, 3, 25)));
        for (start, before) in starts.iter().zip(0..) {
            let patience = settings.patience * before;
            let (time, slept) = (began.until(*start), began.slept_until(*start));
            assert!(time + milliseconds(1) >= patience, "{before}: {time:?}"); // whole milliseconds
            assert!(
                slept < patience + settings.patience / 2,
                "{before}: it slept {slept:?}"
            );
        }
    });
}

/// An answer without payloads is a failure, unless there is only one cache.
#[test]
fn empty_answers() {
    in_time(|| {
        let addresses = [Address::default(), Address::default()];
        let empty = Data::new(2, SESSION, 7, None).unwrap();
        let _first = cache(&addresses[0], empty.clone());
        let _second = cache(&addresses[1], data_of(9, 3, 25));
        let mut failures = 0;
        let data = until_second(GroupSettings::default(), &addresses, |event| match event {
            Event::Failed(ClientError::Empty) => failures += 1,
            Event::Data { .. } => {}
            other => panic!("{other:?}"),
        });
        assert_eq!((data, failures), (data_of(9, 3, 25), 1));
        let clients = |member: usize| client(&addresses[member], options());
        let alone = follow(1, clients, |_, event| {
            assert!(matches!(event, Event::Data { .. }));
            ControlFlow::Break(())
        });
        assert_eq!(alone.unwrap().map(|data| data.is_empty()), Some(true));
    });
}

/// A first cache that comes and goes, beside a second one that can't be reached.
struct Restarts {
    first: Address,
    server: Option<Server>,
    /// When each run of the second client dialed, by run.
    dials: Vec<Arc<Mutex<Vec<Instant>>>>,
    /// How often the first had data.
    answers: u32,
}

impl Restarts {
    /// Returns a new client of the second cache.
    fn second(&mut self) -> Arc<Client> {
        let dials = Arc::new(Mutex::new(Vec::new()));
        self.dials.push(Arc::clone(&dials));
        let options = ClientOptions {
            retry: Some(HOUR),
            ..options()
        };
        Arc::new(Client::over(options, move |_| {
            dials.lock().unwrap().push(Instant::now());
            Err::<TcpStream, _>(ErrorKind::ConnectionRefused.into())
        }))
    }

    /// The first cache comes when the second has failed in a run, and goes once it had data, twice.
    /// The third run ends at its second failure.
    fn tell(&mut self, member: usize, event: &Event<'_>) -> ControlFlow<()> {
        match (member, event) {
            (0, Event::Data { .. }) => {
                self.answers += 1;
                *self.first.lock().unwrap() = None;
                self.server.take().expect("it is there").stop();
            }
            (1, Event::Failed(_)) if self.answers == 2 => {
                let last = self.dials.last().expect("it runs").lock().unwrap();
                if last.len() > 1 {
                    return ControlFlow::Break(());
                }
            }
            (1, Event::Failed(_)) if self.server.is_none() => {
                let data = data_of(SESSION, 1 + self.answers, 30);
                self.server = Some(cache(&self.first, data));
            }
            (_, Event::Failed(_)) => {}
            other => panic!("{other:?}"),
        }
        ControlFlow::Continue(())
    }
}

/// The waits for a cache continue to grow where its client is stopped and started again
/// (`docs/SESSIONS.md`, "Caches by preference"): the third is of 4 seconds, less up to half by
/// chance.
#[test]
fn waits_that_go_on() {
    in_time(|| {
        let first = Address::default();
        let restarts = Mutex::new(Restarts {
            first: Arc::clone(&first),
            server: None,
            dials: Vec::new(),
            answers: 0,
        });
        let clients = |member: usize| match member {
            0 => client(&first, options()),
            _ => restarts.lock().unwrap().second(),
        };
        let on = |member: usize, event: Event<'_>| restarts.lock().unwrap().tell(member, &event);
        follow(2, clients, on).unwrap();
        let restarts = restarts.into_inner().unwrap();
        assert_eq!(restarts.dials.len(), 3);
        let last = restarts.dials[2].lock().unwrap();
        let wait = last[1] - last[0];
        assert!(wait >= milliseconds(1999), "{wait:?}"); // it counts whole milliseconds
    });
}

/// Too many caches are refused.
#[test]
fn too_many() {
    for members in [Group::MOST + 1, 1000] {
        let clients = |_| panic!("no client is made");
        let refused = follow(members, clients, |_, event| panic!("{event:?}")).unwrap_err();
        assert_eq!(refused.kind(), ErrorKind::InvalidInput);
        assert_eq!(refused.to_string(), TooManyMembers.to_string());
    }
}

/// Stopping the client of the first cache ends it; without members it ends at once.
#[test]
fn stopped() {
    in_time(|| {
        let address = Address::default();
        let _cache = cache(&address, data(5));
        let first = client(&address, options());
        let clients = |_| Arc::clone(&first);
        let shown = follow(1, clients, |_, event| {
            assert!(matches!(event, Event::Data { .. }));
            first.stop();
            ControlFlow::Continue(())
        });
        assert_eq!(shown.unwrap(), Some(data(5)));
        let none = follow(0, clients, |_, event| panic!("{event:?}"));
        assert_eq!(none.unwrap(), None);
    });
}
