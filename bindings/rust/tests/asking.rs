//! Requests for current data before the refresh time.
#![cfg(feature = "std")]

mod peers;

use peers::*;
use rtr_wire::*;
use std::net::TcpListener;
use std::ops::ControlFlow;
use std::sync::Arc;
use std::thread::scope;
use std::time::Duration;

fn options() -> ClientOptions {
    ClientOptions {
        version: 2,
        response: PATIENCE,
        pause: milliseconds(5),
        retry: Some(milliseconds(20)),
        ..ClientOptions::default()
    }
}

/// A whole answer to a reset query.
fn all(serial: u32) -> Vec<u8> {
    [&response(2, SESSION), data(serial).as_bytes()].concat()
}

/// The answer to a serial query.
fn changed(from: u32, to: u32) -> Vec<u8> {
    let changes = data(from).delta_to(&data(to)).unwrap();
    [&response(2, SESSION), changes.as_bytes()].concat()
}

/// A router that has connected and asked at time 0, with a pause of a second between queries.
fn asked() -> Router {
    asked_with(milliseconds(1000))
}

/// The same with this pause.
fn asked_with(pause: Duration) -> Router {
    let options = ClientOptions { pause, ..options() };
    let mut router = Router::new(&options, 0);
    assert!(matches!(router.next(0), Step::Connect));
    router.connected(0);
    assert_eq!(sent(&mut router), reset_query(2));
    router
}

/// The bytes that the router sends.
fn sent(router: &mut Router) -> Vec<u8> {
    let output = router.output().to_vec();
    router.sent(output.len());
    output
}

/// Runs the router at a time until it waits, and returns how often it reported data.
fn goes_on(router: &mut Router, now: u64) -> usize {
    let mut data = 0;
    loop {
        match router.next(now) {
            Step::Wait => return data,
            Step::Data(_) => data += 1,
            other => panic!("{other:?}"),
        }
    }
}

/// It asks once: at once, or after the rest of the pause.
#[test]
fn a_router_that_waits() {
    let mut router = asked();
    router.received(&all(1));
    assert_eq!(goes_on(&mut router, 0), 1);
    router.ask_now();
    router.ask_now();
    assert_eq!(goes_on(&mut router, 999), 0);
    assert_eq!((sent(&mut router), router.wakes()), (vec![], 1000));
    goes_on(&mut router, 1000);
    assert_eq!(sent(&mut router), serial_query(2, SESSION, 1));
    router.received(&changed(1, 2));
    assert_eq!(goes_on(&mut router, 5000), 1);
    assert_eq!((sent(&mut router), router.data()), (vec![], Some(&data(2))));
    assert_eq!(router.wakes(), 5000 + 3_600_000);
}

/// While an answer is awaited or received a request is a no-op, and no byte of the answer or of a
/// partial unit is lost.
#[test]
fn a_router_in_an_answer() {
    let answer = all(1);
    for cut in 0..answer.len() {
        let mut router = asked();
        if cut > 0 {
            router.received(&answer[..cut]);
        }
        goes_on(&mut router, 0);
        router.ask_now();
        assert_eq!(goes_on(&mut router, 2000), 0);
        assert_eq!(sent(&mut router), []);
        router.received(&answer[cut..]);
        assert_eq!(goes_on(&mut router, 3000), 1);
        assert_eq!(sent(&mut router), [], "{cut}");
        assert_eq!(router.wakes(), 3000 + 3_600_000, "{cut}");
    }
    let mut router = asked();
    router.received(&answer);
    router.received(&[2, 0, 0]); // the front of a notify
    goes_on(&mut router, 0);
    router.ask_now();
    goes_on(&mut router, 3000);
    assert_eq!(sent(&mut router), serial_query(2, SESSION, 1));
}

/// Without data it asks for all.
#[test]
fn a_router_without_data() {
    let mut router = asked();
    router.received(&[2, 10, 0, 2, 0, 0, 0, 16, 0, 0, 0, 0, 0, 0, 0, 0]);
    assert!(matches!(router.next(0), Step::Failed(_)));
    router.ask_now();
    goes_on(&mut router, 1000);
    assert_eq!(sent(&mut router), reset_query(2));
}

/// Without a connection, less than a pause after its last query, it connects after a pause instead
/// of a second; a request doesn't make it connect later. Then it asks once.
#[test]
fn a_router_without_a_connection() {
    let mut router = asked_with(milliseconds(400));
    router.received(&all(1));
    goes_on(&mut router, 0);
    router.received(&[]);
    assert!(matches!(router.next(0), Step::Close));
    assert!(matches!(router.next(0), Step::Failed(ClientError::Closed)));
    assert!(matches!(router.next(0), Step::Wait));
    for (now, wakes) in [(200, 600), (300, 600)] {
        router.ask_now();
        assert!(matches!(router.next(now), Step::Wait));
        assert_eq!(router.wakes(), wakes, "{now}");
    }
    assert!(matches!(router.next(600), Step::Connect));
    router.ask_now(); // it connects already
    assert!(matches!(router.next(700), Step::Wait));
    router.connected(700);
    assert_eq!(sent(&mut router), serial_query(2, SESSION, 1));
    router.received(&changed(1, 2));
    assert_eq!(goes_on(&mut router, 700), 1);
    assert_eq!(sent(&mut router), []);
}

/// After failed connections a request ends the wait, which grows.
#[test]
fn a_router_that_is_refused() {
    let options = ClientOptions {
        pause: Duration::from_secs(1),
        ..ClientOptions::default()
    };
    let mut router = Router::new(&options, 0);
    let mut now = 0;
    for refused in 0..10 {
        assert!(matches!(router.next(now), Step::Connect), "{refused}");
        router.lost(now, std::io::ErrorKind::ConnectionRefused.into());
        assert!(matches!(router.next(now), Step::Close));
        assert!(matches!(router.next(now), Step::Failed(_)));
        assert!(matches!(router.next(now), Step::Wait));
        now += 1000;
        router.ask_now();
    }
    assert!(matches!(router.next(now), Step::Connect));
}

/// Data are valid until their expire time, even if they are dropped later (RFC 8210 section 6). A
/// request doesn't prolong that.
#[test]
fn data_that_have_expired() {
    let mut router = asked();
    assert!(!router.has_data(0));
    router.received(&all(1));
    goes_on(&mut router, 5000);
    assert!(router.has_data(5000));
    let late = 5000 + 7_200_000;
    assert!(router.has_data(late - 1));
    assert!(!router.has_data(late));
    router.ask_now();
    assert!(matches!(router.next(late), Step::Dropped(_)));
    assert_eq!(router.data(), None);
    assert!(matches!(router.next(late), Step::Close));
    assert!(matches!(
        router.next(late),
        Step::Failed(ClientError::Expired)
    ));
}

/// A cache that answers twice, and calls a function in between; the second query is requested.
fn answers_twice(listener: &TcpListener, between: impl FnOnce()) {
    let mut cache = Peer::of(listener.accept().unwrap().0);
    cache.unit().unwrap();
    cache.send(&all(1));
    between();
    let query = serial_query(2, SESSION, 1);
    assert_eq!(cache.bytes(query.len()), query);
    cache.send(&changed(1, 2));
    assert!(cache.is_closed());
}

/// A client that waits is woken, by its own thread or another one.
#[test]
fn a_client_that_waits() {
    let _alone = alone();
    for by_another in [false, true] {
        let listener = TcpListener::bind("127.0.0.1:0").unwrap();
        let address = listener.local_addr().unwrap().to_string();
        let client = Client::new(address, options());
        let (wants, wanted) = std::sync::mpsc::channel();
        scope(|scope| {
            let (client, listener) = (&client, &listener);
            scope.spawn(move || {
                answers_twice(listener, || {
                    if by_another {
                        wanted.recv_timeout(PATIENCE).unwrap();
                        client.ask_now();
                    }
                });
            });
            let last = client.run(|event| match event {
                Event::Data { data, .. } if data.end().serial == 2 => ControlFlow::Break(()),
                Event::Data { .. } if by_another => {
                    wants.send(()).unwrap();
                    ControlFlow::Continue(())
                }
                Event::Data { .. } => {
                    client.ask_now();
                    ControlFlow::Continue(())
                }
                other => panic!("{other:?}"),
            });
            assert_eq!(last, Some(data(2)));
        });
        client.ask_now(); // nobody is there any more
    }
}

/// A member of a group that waits is woken by its client.
#[test]
fn a_client_that_is_followed() {
    let _alone = alone();
    let listener = TcpListener::bind("127.0.0.1:0").unwrap();
    let address = listener.local_addr().unwrap().to_string();
    // Nothing listens at the first address.
    let addresses = ["127.0.0.1:1".to_string(), address];
    let clients = addresses.map(|address| Arc::new(Client::new(address, options())));
    scope(|scope| {
        scope.spawn(|| answers_twice(&listener, || {}));
        let made = |member: usize| Arc::clone(&clients[member]);
        let last = follow(2, made, |member, event| match event {
            Event::Data { data, .. } if data.end().serial == 2 => ControlFlow::Break(()),
            Event::Data { .. } => {
                clients[member].ask_now();
                ControlFlow::Continue(())
            }
            Event::Failed(_) if member == 0 => ControlFlow::Continue(()),
            other => panic!("{member}: {other:?}"),
        });
        assert_eq!(last.unwrap(), Some(data(2)));
    });
}
