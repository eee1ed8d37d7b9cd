//! A cache, and well-behaved and faulty clients.
#![cfg(feature = "std")]

mod caches;
mod common;
mod peers;

use caches::{knows, limits, options, Cache, SavedFile};
use peers::*;
use rtr_wire::*;
use std::io::Read;
use std::net::TcpStream;
use std::sync::mpsc::{channel, Receiver};
use std::sync::{Arc, Mutex};
use std::time::{Duration, Instant};

#[test]
fn reset_queries() {
    let _alone = alone();
    let cache = Cache::with_data(5);
    for version in 0..=2 {
        let mut client = cache.client();
        for _ in 0..2 {
            client.send(&reset_query(version));
            let wanted = data(5).for_version(version).unwrap();
            assert_eq!(client.response(), wanted.as_bytes());
        }
    }
}

#[test]
fn serial_queries() {
    let _alone = alone();
    let cache = Cache::with_data(12);
    (0..=2).for_each(|version| knows(&cache, version, 1..=12));
}

/// Changes are kept for a time, and within a limit of bytes.
#[test]
fn what_is_kept() {
    let _alone = alone();
    let back = data(6).delta_to(&data(5)).unwrap();
    let cache = Cache::new(ServerOptions {
        keep_bytes: 3 * (16 + back.as_bytes().len()),
        ..options()
    });
    for serial in 1..=6 {
        assert_eq!(cache.server.update(data(serial)), Ok(true));
    }
    knows(&cache, 2, 3..=6);
    knows(&cache, 0, 3..=6);
    drop(cache);
    let cache = within(milliseconds(300), |keep| {
        let cache = Cache::new(ServerOptions { keep, ..options() });
        for serial in 1..=3 {
            assert_eq!(cache.server.update(data(serial)), Ok(true));
        }
        cache
    });
    knows(&cache, 1, 1..=3);
    std::thread::sleep(milliseconds(400));
    assert_eq!(cache.server.update(data(4)), Ok(true));
    knows(&cache, 1, 3..=4);
}

/// Retries a check that a busy machine may miss in time.
fn within<T>(limit: Duration, what: impl Fn(Duration) -> T) -> T {
    loop {
        let began = Instant::now();
        let done = what(limit);
        if began.elapsed() < limit {
            return done;
        }
    }
}

/// The serial number wraps from the highest to the lowest (RFC 1982); changes from at most half of
/// all serial numbers before it are kept.
#[test]
fn serial_numbers_wrap() {
    let _alone = alone();
    let cache = Cache::new(options());
    let of = |(number, serial): (usize, u32)| data(number as u32).numbered(SESSION, serial);
    let rows = [0x8000_000a, u32::MAX, 0, 5].into_iter().enumerate();
    for row in rows.clone() {
        assert_eq!(cache.server.update(of(row)), Ok(true));
    }
    let mut client = cache.client();
    for row in rows {
        client.send(&serial_query(2, SESSION, row.1));
        let changes = order(&client.response()).unwrap();
        assert_eq!(of(row).apply(&changes), Ok(of((3, 5))));
    }
    // The first serial number isn't earlier than this one, of which the client is notified.
    assert_eq!(cache.server.update(of((4, 0x6000_0000))), Ok(true));
    assert!(matches!(client.unit(), Some(Unit::SerialNotify(_))));
    client.send(&serial_query(2, SESSION, 0x8000_000a));
    assert!(matches!(client.unit(), Some(Unit::CacheReset(_))));
}

/// An ASPA that comes, goes and comes again, and payloads that come and go: the changes from each
/// earlier data are the direct difference.
#[test]
fn many_steps() {
    let _alone = alone();
    let cache = Cache::new(options());
    let of = |serial: u32| {
        let count = [0, 20, 3, 40, 0, 7][serial as usize % 6];
        let with_aspa = data_of(SESSION, serial, count);
        if serial % 2 == 0 {
            return with_aspa;
        }
        let of_1 = with_aspa.for_version(1).unwrap();
        of_1.for_version(2).unwrap()
    };
    for serial in 1..=9 {
        assert_eq!(cache.server.update(of(serial)), Ok(true));
    }
    let mut client = cache.client();
    for serial in 1..=9 {
        client.send(&serial_query(2, SESSION, serial));
        let changes = of(serial).delta_to(&of(9)).unwrap();
        assert_eq!(client.response(), changes.as_bytes());
    }
}

/// Data of a lower version and of a higher one may follow one another.
#[test]
fn versions_of_data() {
    let _alone = alone();
    let cache = Cache::new(options());
    let versions = [1, 2, 0, 1];
    let of = |serial: u32| {
        data(serial)
            .for_version(versions[serial as usize - 1])
            .unwrap()
    };
    for serial in 1..=4 {
        assert_eq!(cache.server.update(of(serial)), Ok(true));
    }
    for version in 0..=2 {
        let mut client = cache.client();
        client.send(&reset_query(version));
        let new = Data::from_sequence(&client.response()).unwrap();
        assert_eq!(new, of(4).for_version(version).unwrap());
        for serial in 1..=4 {
            client.send(&serial_query(version, SESSION, serial));
            let old = of(serial).for_version(version).unwrap();
            let changes = order(&client.response()).unwrap();
            assert_eq!(old.apply(&changes).unwrap(), new);
        }
    }
}

#[test]
fn updates() {
    let _alone = alone();
    let file = SavedFile::new("updates");
    let cache = Cache::saving(&file, 1..=3);
    let refused = UpdateError::SerialNotAfter { present: 3, new: 2 };
    assert_eq!(cache.server.update(data(2)), Err(refused));
    let text = "the serial number isn't later than that of the present data: new 2, present 3";
    assert_eq!(refused.to_string(), text);
    let other = data(1).numbered(SESSION, 3);
    assert!(cache.server.update(other).is_err());
    assert_eq!(cache.server.update(data(3)), Ok(false));
    let again = data(3).numbered(SESSION, 1);
    let refused = UpdateError::SerialNotAfter { present: 3, new: 1 };
    assert_eq!(cache.server.update(again), Err(refused));
    // Other timings under the same serial number: the last four bytes are the expire time (RFC 8210
    // section 5.8).
    let mut bytes = data(3).into_bytes();
    let length = bytes.len();
    bytes[length - 1] += 1;
    let timed = Data::parse(&bytes).unwrap();
    let refused = UpdateError::NewTimings;
    assert_eq!(cache.server.update(timed), Err(refused));
    let text = "only the times differ from those of the present data";
    assert_eq!(refused.to_string(), text);
    cache.serves(3);
    // Times that RFC 8210 section 6 doesn't allow a cache.
    for (rule, [refresh, retry, expire]) in [
        (TimeRule::Refresh, [0, 600, 7200]),
        (TimeRule::Refresh, [86_401, 600, 172_800]),
        (TimeRule::Retry, [3600, 0, 7200]),
        (TimeRule::Retry, [3600, 7201, 172_800]),
        (TimeRule::Expire, [1, 1, 599]),
        (TimeRule::Expire, [3600, 600, 172_801]),
        (TimeRule::AboveRefresh, [3600, 600, 3600]),
        (TimeRule::AboveRetry, [600, 3600, 3600]),
    ] {
        let timing = Timing {
            refresh,
            retry,
            expire,
        };
        let data = Data::new(2, SESSION, 4, Some(timing)).unwrap();
        assert_eq!(cache.server.update(data), Err(UpdateError::Times(rule)));
    }
    let refused = UpdateError::Times(TimeRule::Expire);
    let text = "the expire time has to be 600 to 172800 seconds";
    assert_eq!(refused.to_string(), text);
    cache.serves(3);
    // Clients that have data of another session are disconnected.
    let mut client = cache.client();
    client.send(&reset_query(2));
    client.response();
    assert_eq!(cache.server.update(data_of(7, 1, 20)), Ok(true));
    assert!(client.is_closed());
    let mut client = cache.client();
    client.send(&serial_query(2, SESSION, 3));
    assert!(matches!(client.unit(), Some(Unit::CacheReset(_))));
}

/// A client with data of an earlier session gets no data of the next one, however soon it asks (RFC
/// 8210 section 5.1).
#[test]
fn sessions_that_end() {
    let _alone = alone();
    for _ in 0..5 {
        let file = SavedFile::new("sessions");
        let cache = Cache::saving(&file, 1..=1);
        let mut client = cache.client();
        client.send(&reset_query(2));
        client.response();
        assert_eq!(cache.server.update(data_of(7, 1, 20)), Ok(true));
        client.try_send(&serial_query(2, SESSION, 1));
        assert!(client.is_closed());
    }
}

/// Input of a client that isn't a query, and the code of the report that it gets, if any.
fn refused_units() -> Vec<(Vec<u8>, Option<ErrorCode>)> {
    let mut rows = Vec::new();
    for (bytes, unit) in common::rows() {
        let code = match unit.kind() {
            Kind::ResetQuery | Kind::SerialQuery => continue,
            Kind::ErrorReport => None,
            _ => Some(ErrorCode::INVALID_REQUEST),
        };
        rows.push((bytes.to_vec(), code));
    }
    for row in common::hostile_lengths() {
        let (version, kind, _, _, fault) = row;
        let code = match fault {
            _ if kind == 10 => None,
            _ if version > 2 => Some(ErrorCode::UNSUPPORTED_PROTOCOL_VERSION),
            Fault::UnitType(_) => Some(ErrorCode::UNSUPPORTED_PDU_TYPE),
            Fault::EmptyProviders => Some(ErrorCode::ASPA_PROVIDER_LIST_ERROR),
            _ => Some(ErrorCode::CORRUPT_DATA),
        };
        rows.push((common::hostile_input(row), code));
    }
    let mut prefix = common::IPV4.to_vec();
    prefix[9] = 33;
    rows.push((prefix, Some(ErrorCode::CORRUPT_DATA)));
    let unsupported = Some(ErrorCode::UNSUPPORTED_PROTOCOL_VERSION);
    rows.push((reset_query(3), unsupported));
    rows.push((serial_query(255, 1, 1), unsupported));
    rows
}

#[test]
fn bad_units() {
    let _alone = alone();
    let cache = Cache::with_data(2);
    for (bytes, code) in refused_units() {
        let mut client = cache.client();
        client.try_send(&bytes);
        let version = bytes[0].min(2);
        assert_eq!(
            client.report(),
            code.map(|code| (code, version)),
            "{bytes:02x?}"
        );
    }
    // The first query says in which version the rest is.
    let unexpected = Some((ErrorCode::UNEXPECTED_PROTOCOL_VERSION, 1));
    for later in [
        reset_query(0),
        reset_query(3),
        common::ASPA.to_vec(),
        vec![2; 8],
    ] {
        let mut client = cache.client();
        client.send(&reset_query(1));
        client.response();
        client.try_send(&later);
        assert_eq!(client.report(), unexpected);
    }
    // A long unit is enclosed as far as it fits.
    let mut key = vec![1, 9, 1, 0, 0, 0, 0xff, 0xff];
    key.resize(65535, 0);
    let mut client = cache.client();
    client.try_send(&key);
    assert_eq!(client.report(), Some((ErrorCode::INVALID_REQUEST, 1)));
    cache.serves(2);
}

/// A session that ends after any of its bytes.
#[test]
fn clients_that_stop() {
    let _alone = alone();
    let cache = Cache::with_data(4);
    let session = [reset_query(2), serial_query(2, SESSION, 2), reset_query(2)].concat();
    for length in 0..=session.len() {
        let mut client = cache.client();
        client.send(&session[..length]);
        client.finish();
        if length >= 8 {
            assert_eq!(client.response(), data(4).as_bytes());
        }
        if length >= 20 {
            let changes = order(&client.response()).unwrap();
            assert_eq!(data(2).apply(&changes), Ok(data(4)));
        }
        if length == session.len() {
            client.response();
        }
        let inside = !matches!(length, 0 | 8 | 20 | 28);
        let corrupt = inside.then_some(ErrorCode::CORRUPT_DATA);
        assert_eq!(client.report().map(|report| report.0), corrupt);
    }
    assert!(holds(|| cache.server.clients() == 0));
}

/// A session that stalls after any of its bytes, or whose connection is reset there.
#[test]
fn clients_that_stall_or_reset() {
    let _alone = alone();
    let cache = Cache::new(limits());
    assert_eq!(cache.server.update(data(4)), Ok(true));
    let session = [reset_query(2), serial_query(2, SESSION, 2), reset_query(2)].concat();
    let mut stalled = Vec::new();
    for length in 0..=session.len() {
        let mut client = cache.client();
        client.send(&session[..length]);
        if length >= 8 {
            client.is_sent_to();
        }
        drop(client);
        let mut client = cache.client();
        client.send(&session[..length]);
        stalled.push(client);
    }
    cache.serves(4);
    assert!(holds(|| cache.server.clients() == 0));
}

/// A client that is too slow is disconnected, and no other client notices.
#[test]
fn slow_clients() {
    let _alone = alone();
    let (server, endings) = telling(limits());
    let address = server.listen("127.0.0.1:0").unwrap();
    let cache = Cache { server, address };
    assert_eq!(cache.server.update(data_of(SESSION, 1, 20)), Ok(true));
    // The client sends nothing, a unit a byte at a time, or nothing after a query.
    let (mut nothing, mut bytes, mut idle) = (cache.client(), cache.client(), cache.client());
    idle.send(&reset_query(2));
    idle.response();
    let began = Stamp::of("rtr cache");
    for byte in reset_query(2) {
        bytes.try_send(&[byte]);
        std::thread::sleep(milliseconds(100));
    }
    assert!(bytes.is_closed() && idle.is_closed() && nothing.is_closed());
    for (why, ended) in endings.iter().take(3) {
        assert_eq!(why, "the router is too slow");
        let slept = began.slept_until(ended);
        assert!(slept < milliseconds(3000), "it ended late: {slept:?}");
    }
    cache.serves(1);
    // Long units come without an end.
    let mut flood = cache.client();
    let mut report = vec![2, 9, 1, 0, 0, 0, 0xff, 0xff];
    report.resize(65535, 1);
    (0..100).for_each(|_| flood.try_send(&report));
    assert!(holds(|| cache.server.clients() <= 1));
}

/// A client that asks and doesn't read is disconnected, while others are served; none of its memory
/// is left.
#[test]
fn clients_that_do_not_read() {
    let _alone = alone();
    let cache = Cache::new(ServerOptions {
        idle: PATIENCE,
        ..limits()
    });
    let large = data_of(SESSION, 1, u16::MAX);
    let answer = answer(&large, 1);
    assert_eq!(cache.server.update(large), Ok(true));
    let mut stalled: Vec<Peer> = (0..4).map(|_| cache.client()).collect();
    for client in &mut stalled {
        (0..40).for_each(|_| client.try_send(&reset_query(2)));
    }
    let mut reading = cache.client();
    for _ in 0..3 {
        reading.send(&reset_query(1));
        assert!(reading.bytes(answer.len()) == answer, "other bytes came");
    }
    drop(reading);
    assert!(holds(|| cache.server.clients() == 0));
    // A client that reads too slowly is disconnected when its data are too old.
    let mut slow = cache.client();
    (0..40).for_each(|_| slow.try_send(&reset_query(2)));
    std::thread::sleep(milliseconds(200));
    for serial in 2..=6 {
        assert_eq!(cache.server.update(data(serial)), Ok(true));
    }
    assert!(holds(|| cache.server.clients() == 0));
}

/// A client that reads slowly gets each byte of an answer that no buffer holds.
#[test]
fn a_slow_reader() {
    let _alone = alone();
    let cache = Cache::new(options());
    let data = unbuffered();
    let expected = answer(&data, 2);
    assert_eq!(cache.server.update(data), Ok(true));
    let mut client = cache.client();
    client.send(&reset_query(2));
    let mut came = vec![0; expected.len()];
    for (number, piece) in came.chunks_mut(1 << 20).enumerate() {
        // While this thread waits, so do the server's writes; some have written only a part.
        if number < 8 {
            std::thread::sleep(milliseconds(250));
        }
        client.stream.read_exact(piece).unwrap();
    }
    assert!(came == expected, "other bytes came");
}

/// At most the limit of clients is served; another one is served after one has left.
#[test]
fn too_many_clients() {
    let _alone = alone();
    let cache = Cache::new(ServerOptions {
        connections: 2,
        ..options()
    });
    assert_eq!(cache.server.update(data(1)), Ok(true));
    let (mut staying, leaving) = (cache.client(), cache.client());
    assert!(holds(|| cache.server.clients() == 2));
    // A silent close would make routers try a lower version.
    let full = Some((ErrorCode::INTERNAL_ERROR, 2));
    assert_eq!(cache.client().report(), full);
    let mut asking = cache.client();
    asking.try_send(&reset_query(1));
    assert_eq!(asking.report(), full);
    drop(leaving);
    assert!(holds(|| cache.server.clients() == 1));
    cache.serves(1);
    staying.send(&reset_query(2));
    staying.response();
}

/// While a callback keeps the server, hundreds of clients may connect, and are served after it.
#[test]
fn a_crowd_that_waits() {
    let _alone = alone();
    let (enter, entered) = channel();
    let (leave, left) = channel::<()>();
    let gate = Mutex::new((enter, left));
    let server = Server::telling(options(), move |_, _| {
        let (enter, left) = &*gate.lock().unwrap();
        let _ = enter.send(());
        let _ = left.recv();
    });
    let address = server.listen("127.0.0.1:0").unwrap();
    assert_eq!(server.update(data(1)), Ok(true));
    Peer::connect(address).send(&[2, 5, 0, 0, 0, 0, 0, 8]); // a unit of an unknown type
    entered.recv().unwrap();
    let crowd: Result<Vec<TcpStream>, _> = (0..300)
        .map(|_| TcpStream::connect_timeout(&address, milliseconds(900)))
        .collect();
    drop(leave);
    let mut last = Peer::of(crowd.unwrap().pop().unwrap());
    last.send(&reset_query(2));
    assert_eq!(last.response(), data(1).as_bytes());
}

/// The behaviour of a hostile client, by its number.
fn attack(mut client: Peer, number: usize) {
    match number % 6 {
        0 => client.try_send(&[2, 9, 1, 0, 0xff, 0xff, 0xff, 0xff]),
        1 => client.try_send(&[2, 2, 0]),
        2 => (0..500).for_each(|_| client.try_send(&reset_query(2))),
        3 => client.try_send(&[0xff; 70_000]),
        4 => client.try_send(common::REPORT),
        _ => return,
    }
    std::thread::sleep(milliseconds(700));
}

/// A hundred clients at once, of which half are hostile: the others get all data and each change.
#[test]
fn a_hundred_clients() {
    let _alone = alone();
    let cache = Cache::with_data(1);
    let address = cache.address;
    let client = move || {
        let mut client = Peer::connect(address);
        client.send(&reset_query(2));
        let mut mine = Data::from_sequence(&client.response()).unwrap();
        // One query at a time: the answer to it leads from the data that it names.
        let (mut is_asked, mut is_behind) = (false, false);
        while mine.end().serial < 4 {
            // An answer, or a notify.
            match client.unit() {
                Some(Unit::SerialNotify(_)) => is_behind = true,
                Some(Unit::CacheResponse(_)) => {
                    let changes = order(&client.sequence()).unwrap();
                    mine = mine.apply(&changes).expect("it leads from these data");
                    is_asked = false;
                }
                other => panic!("{other:?}"),
            }
            if is_behind && !is_asked {
                client.send(&serial_query(2, SESSION, mine.end().serial));
                (is_asked, is_behind) = (true, false);
            }
            assert_eq!(mine, data(mine.end().serial));
        }
    };
    std::thread::scope(|scope| {
        for number in 0..50 {
            scope.spawn(client);
            scope.spawn(move || attack(Peer::connect(address), number));
        }
        for serial in 2..=4 {
            std::thread::sleep(milliseconds(200));
            assert_eq!(cache.server.update(data(serial)), Ok(true));
        }
    });
    assert!(holds(|| cache.server.clients() == 0));
}

/// A server stops while clients are connected, in the middle of answers too.
#[test]
fn stops() {
    let _alone = alone();
    let cache = Cache::new(options());
    assert_eq!(cache.server.update(data_of(SESSION, 1, u16::MAX)), Ok(true));
    let mut clients: Vec<Peer> = (0..10).map(|_| cache.client()).collect();
    for client in &mut clients {
        (0..20).for_each(|_| client.send(&reset_query(2)));
    }
    std::thread::sleep(milliseconds(100));
    drop(cache);
}

/// A server that its callback reaches, and calls this with; and a receiver of its returns.
fn reached(
    then: impl Fn(&mut Option<Server>) + Send + Sync + 'static,
) -> (Arc<Mutex<Option<Server>>>, Receiver<()>) {
    let (sender, returns) = channel();
    let sender = Mutex::new(sender);
    let shared = Arc::new(Mutex::new(None));
    let reached = Arc::clone(&shared);
    let server = Server::telling(options(), move |_, _| {
        then(&mut reached.lock().unwrap());
        sender.lock().unwrap().send(()).unwrap();
    });
    *shared.lock().unwrap() = Some(server);
    (shared, returns)
}

/// A callback may stop its server, or drop it: the thread ends once it has returned, and other
/// clients are disconnected.
#[test]
fn stops_in_a_callback() {
    let _alone = alone();
    let ways: [fn(&mut Option<Server>); 2] = [
        |server| server.as_ref().unwrap().stop(),
        |server| drop(server.take()),
    ];
    for way in ways {
        let (shared, returns) = reached(way);
        let listen = |server: &Server| server.listen("127.0.0.1:0").unwrap();
        let address = listen(shared.lock().unwrap().as_ref().unwrap());
        let (mut other, mut faulty) = (Peer::connect(address), Peer::connect(address));
        faulty.send(&prefix(1, 7));
        assert_eq!(returns.recv_timeout(PATIENCE), Ok(()));
        assert!(other.is_closed());
        let server = shared.lock().unwrap().take();
        if let Some(server) = server {
            server.stop();
            assert_eq!(threads("rtr "), 0);
        }
        assert!(holds(|| threads("rtr ") == 0), "threads are left");
    }
}

/// A server, and the texts of why it ended connections, each with that moment of its thread.
fn telling(options: ServerOptions) -> (Server, Receiver<(String, Stamp)>) {
    let (sender, endings) = channel();
    let sender = Mutex::new(sender);
    let server = Server::telling(options, move |_, error| {
        let ended = (error.to_string(), Stamp::now());
        let _ = sender.lock().unwrap().send(ended);
    });
    (server, endings)
}

/// In the middle of answers, a new session ends connections at once, and so do data of which a
/// client is more than two behind.
#[test]
fn answers_that_are_cut() {
    let _alone = alone();
    for (session, text) in [
        (SESSION, "the router is too far behind"),
        (7, "the data are of a new session"),
    ] {
        let (server, endings) = telling(options());
        let file = SavedFile::new("cut");
        server.save_to(&file.0).unwrap();
        let address = server.listen("127.0.0.1:0").unwrap();
        server.update(unbuffered()).unwrap();
        let mut slow = Peer::connect(address);
        slow.send(&reset_query(2));
        let mut front = vec![0; 1 << 16];
        slow.stream.read_exact(&mut front).unwrap();
        for serial in 2..=3 {
            server.update(data(serial)).unwrap();
        }
        assert!(endings.recv_timeout(milliseconds(300)).is_err());
        server.update(data_of(session, 4, 20)).unwrap();
        let updated = Stamp::of("rtr cache");
        let (why, ended) = endings.recv_timeout(PATIENCE).expect("it ends");
        assert_eq!(why, text);
        let slept = updated.slept_until(ended);
        assert!(slept < milliseconds(500), "it ended late: {slept:?}");
        assert!(holds(|| server.clients() == 0));
    }
}

/// No thread wakes without cause: neither for clients that ask nothing, nor for clients that don't
/// read.
#[test]
fn no_thread_wakes() {
    let _alone = alone();
    let cache = Cache::new(ServerOptions {
        first_query: HOUR,
        unit: HOUR,
        write: HOUR,
        ..ServerOptions::default()
    });
    assert_eq!(cache.server.update(data_of(SESSION, 1, u16::MAX)), Ok(true));
    let mut clients: Vec<Peer> = (0..20).map(|_| cache.client()).collect();
    let (slow, idle) = clients.split_at_mut(2);
    for client in slow {
        (0..40).for_each(|_| client.send(&reset_query(2)));
        client.is_sent_to();
    }
    for client in idle.iter_mut().skip(5) {
        client.send(&reset_query(1));
        client.response();
        client.send(&[1, 1]);
    }
    assert!(stay_asleep(&["rtr cache"]));
}

/// After a limit has ended a connection no thread wakes for it.
#[test]
fn no_thread_wakes_after_a_limit() {
    let _alone = alone();
    let cache = Cache::new(ServerOptions {
        unit: milliseconds(100),
        ..options()
    });
    let _idle = cache.client();
    let mut slow = cache.client();
    slow.send(&[2, 2]);
    assert!(slow.is_closed());
    assert!(stay_asleep(&["rtr cache"]));
}

/// The server logs why it ended a connection, except for clients that just leave.
#[test]
fn reasons() {
    let _alone = alone();
    let (server, endings) = telling(ServerOptions {
        connections: 1,
        idle: PATIENCE,
        ..limits()
    });
    let file = SavedFile::new("reasons");
    server.save_to(&file.0).unwrap();
    let address = server.listen("127.0.0.1:0").unwrap();
    server.update(data(1)).unwrap();
    let mut going = Peer::connect(address);
    going.send(&reset_query(2));
    going.response();
    drop(going);
    assert!(holds(|| server.clients() == 0));
    let long = [2, 9, 1, 0, 0xff, 0xff, 0xff, 0xff];
    let why = || endings.recv_timeout(PATIENCE).expect("it ends").0;
    let rows: [(&[u8], &str); 7] = [
        (&[], "the router is too slow"),
        (&long, "unit is longer than 65535 bytes, at byte 0"),
        (&reset_query(3), "version is not supported"),
        (common::IPV4, "unit is not a query"),
        (
            common::REPORT,
            r#"the router reports an error: No Data Available, "no""#,
        ),
        (&[2, 10, 0, 0, 0, 0, 0, 0], "invalid unit length, at byte 0"),
        (&[2, 2], "the router is too slow"),
    ];
    for (bytes, text) in rows {
        let mut client = Peer::connect(address);
        client.send(bytes);
        assert_eq!(why(), text);
        drop(client);
        assert!(holds(|| server.clients() == 0));
    }
    let mut first = Peer::connect(address);
    first.send(&reset_query(2));
    first.response();
    assert!(Peer::connect(address).report().is_some());
    assert_eq!(why(), "too many connections");
    server.update(data_of(7, 1, 20)).unwrap();
    assert!(first.is_closed());
    assert_eq!(why(), "the data are of a new session");
    drop(server);
    assert!(endings.recv_timeout(milliseconds(10)).is_err());
}

/// IPv6, and two addresses at once.
#[test]
fn addresses() {
    let _alone = alone();
    let cache = Cache::with_data(1);
    match cache.server.listen("[::1]:0") {
        Ok(address) => {
            let mut client = Peer::connect(address);
            client.send(&reset_query(2));
            assert_eq!(client.response(), data(1).as_bytes());
        }
        Err(error) => println!("no IPv6 here: {error}"),
    }
    cache.serves(1);
    assert!(cache.server.listen(cache.address).is_err());
}
