//! A client, and well-behaved and faulty caches.
#![cfg(feature = "std")]

mod common;
mod peers;
mod played;

use peers::*;
use played::{options, Played};
use rtr_wire::*;
use std::collections::BTreeMap;
use std::io::Write;
use std::net::SocketAddr;
use std::ops::ControlFlow;
use std::sync::Mutex;
use std::time::{Duration, Instant};

/// An event of a client, as its log has it.
#[derive(Clone, Debug, PartialEq)]
enum Logged {
    Data(Data),
    Dropped,
    Failed(String),
}

/// The events of a client, and the payloads after its changes, as lines by their names.
#[derive(Default)]
struct Log {
    events: Vec<Logged>,
    payloads: BTreeMap<String, String>,
}

/// The name of a payload, and its line.
fn named(unit: &UnitRef) -> (String, String) {
    let line = change_line(unit).expect("it has a payload");
    let name = match unit {
        Unit::Aspa(aspa) => format!("ASPA {}", aspa.customer),
        _ => line[2..].to_string(),
    };
    (name, line[2..].to_string())
}

impl Log {
    /// Checks that the changes lead from the payloads before to the present ones.
    fn add(&mut self, event: &Event<'_>) {
        let (changes, data) = match event {
            Event::Data { data, changes, .. } => (*changes, Some(*data)),
            Event::Dropped { changes } => (*changes, None),
            Event::Failed(error) => {
                self.events.push(Logged::Failed(error.to_string()));
                return;
            }
            other => panic!("{other:?}"),
        };
        for unit in changes.units() {
            let (name, line) = named(&unit);
            if unit.announces() == Some(true) {
                self.payloads.insert(name, line);
            } else {
                assert!(self.payloads.remove(&name).is_some(), "{name} is withdrawn");
            }
        }
        let expected = data.into_iter().flat_map(Data::units);
        assert_eq!(self.payloads, expected.map(|unit| named(&unit)).collect());
        self.events
            .push(data.map_or(Logged::Dropped, |data| Logged::Data(data.clone())));
    }
}

/// Stops the client when it is dropped, so that a test that fails ends.
struct Stopping<'c>(&'c Client);

impl Drop for Stopping<'_> {
    fn drop(&mut self) {
        self.0.stop();
    }
}

/// Runs a client and the script, which may read the log, and returns the client's events. The
/// script's result, such as a connection, lives until the client is stopped.
fn follow<T>(
    address: SocketAddr,
    options: ClientOptions,
    script: impl FnOnce(&Mutex<Log>) -> T,
) -> Vec<Logged> {
    let client = Client::new(address.to_string(), options);
    let log = Mutex::new(Log::default());
    std::thread::scope(|scope| {
        let running = scope.spawn(|| {
            client.run(|event| {
                log.lock().unwrap().add(&event);
                ControlFlow::Continue(())
            })
        });
        {
            let stopping = Stopping(&client);
            let kept = script(&log);
            drop(stopping);
            drop(kept);
        }
        let began = Instant::now();
        running.join().expect("the client doesn't panic");
        assert!(began.elapsed() < LATE, "the client ends late");
    });
    log.into_inner().unwrap().events
}

/// Reports whether this is the client's last event.
fn is_last(log: &Mutex<Log>, expected: &Logged) -> bool {
    holds(|| log.lock().unwrap().events.last() == Some(expected))
}

/// A cache response, and these bytes after it.
fn answer(version: u8, sequence: &[u8]) -> Vec<u8> {
    [&response(version, SESSION), sequence].concat()
}

/// All data of a serial number, as a cache sends them.
fn all(version: u8, serial: u32) -> Vec<u8> {
    answer(
        version,
        data(serial).for_version(version).unwrap().as_bytes(),
    )
}

/// The changes between two serial numbers.
fn changed(from: u32, to: u32) -> Vec<u8> {
    answer(2, data(from).delta_to(&data(to)).unwrap().as_bytes())
}

fn notify(version: u8, session: u16, serial: u32) -> Vec<u8> {
    bytes_of(&Unit::SerialNotify(SerialNotify {
        version,
        session,
        serial,
    }))
}

fn report(version: u8, code: ErrorCode) -> Vec<u8> {
    let (unit, text) = (&[][..], &b"so it is"[..]);
    bytes_of(&Unit::ErrorReport(ErrorReport {
        version,
        code,
        parts: Some(ReportParts { unit, text }),
    }))
}

/// As in all languages, texts of reports are shown in part, and in ASCII.
#[test]
fn texts_of_reports() {
    let (long, cut) = ("a".repeat(99) + "bc", "a".repeat(99) + "b");
    let rows = [
        (2, "", "No Data Available".to_string()),
        (1, "no ~", r#"Internal Error, "no ~""#.to_string()),
        (12, "a\"\n\u{e4}", r#"error code 12, "a"???""#.to_string()),
        (1, &long, format!(r#"Internal Error, "{cut}""#)),
    ];
    for (code, text, shown) in rows {
        let parts = ReportParts {
            unit: vec![],
            text: text.as_bytes().to_vec(),
        };
        let error = ClientError::Reported(ErrorReport {
            version: 1,
            code: ErrorCode(code),
            parts: Some(parts),
        });
        assert_eq!(
            error.to_string(),
            format!("the cache reports an error: {shown}")
        );
    }
}

/// A client of the crate's own cache gets all of its data, in each version.
#[test]
fn follows_a_server() {
    let _alone = alone();
    let server = Server::new(ServerOptions {
        notify: milliseconds(1),
        ..ServerOptions::default()
    });
    let saved = std::env::temp_dir().join(format!("rtr-follows-{}", std::process::id()));
    assert_eq!(server.save_to(&saved).unwrap(), None);
    let address = server.listen("127.0.0.1:0").unwrap();
    server.update(data(1)).unwrap();
    for version in 0..=2 {
        server
            .update(data_of(SESSION + u16::from(version), 1, 20))
            .unwrap();
        let of = |serial| {
            let data = data_of(SESSION + u16::from(version), serial, 20);
            data.for_version(version).unwrap()
        };
        let options = ClientOptions {
            version,
            ..options()
        };
        let events = follow(address, options, |log| {
            for serial in 1..=4 {
                if serial > 1 {
                    let data = data_of(SESSION + u16::from(version), serial, 20);
                    assert_eq!(server.update(data), Ok(true));
                }
                assert!(is_last(log, &Logged::Data(of(serial))));
            }
        });
        assert_eq!(
            events,
            (1..=4)
                .map(|serial| Logged::Data(of(serial)))
                .collect::<Vec<_>>()
        );
    }
    let client = Client::new(address.to_string(), options());
    let data = client.fetch().unwrap();
    assert_eq!((data.end().session, data.end().serial), (SESSION + 2, 4));
    drop(server);
    std::fs::remove_file(saved).unwrap();
    assert!(matches!(client.fetch(), Err(ClientError::Io(_))));
    assert!(holds(|| threads("rtr ") == 0), "threads are left");
}
const UNSUPPORTED: ErrorCode = ErrorCode::UNSUPPORTED_PROTOCOL_VERSION;

/// If no version is left it reports that.
#[test]
fn no_version() {
    let _alone = alone();
    let cache = Played::new();
    let client = Client::new(cache.address().to_string(), options());
    std::thread::scope(|scope| {
        let fetched = scope.spawn(|| client.fetch());
        for version in [2, 1, 0] {
            let mut peer = cache.asked(&reset_query(version));
            peer.send(&report(version, UNSUPPORTED));
        }
        let error = fetched.join().unwrap().unwrap_err();
        let text = r#"the cache reports an error: Unsupported Protocol Version, "so it is""#;
        assert_eq!(error.to_string(), text);
    });
}

/// Notifies, refreshing, a cache reset, a new session, and data that expire.
#[test]
fn a_session() {
    let _alone = alone();
    let cache = Played::new();
    let options = ClientOptions {
        refresh: Some(milliseconds(300)),
        ..options()
    };
    let events = follow(cache.address(), options, |log| {
        let mut peer = cache.asked(&reset_query(2));
        peer.send(&notify(2, SESSION, 9)); // before an answer it says nothing
        peer.send(&all(2, 1));
        assert!(is_last(log, &Logged::Data(data(1))));
        peer.send(&notify(2, SESSION, 1)); // nor where nothing is new
        peer.send(&notify(2, SESSION, 2));
        peer.expect(&serial_query(2, SESSION, 1));
        peer.send(&changed(1, 2));
        // It asks again by itself.
        peer.expect(&serial_query(2, SESSION, 2));
        peer.send(&[2, 8, 0, 0, 0, 0, 0, 8]);
        peer.expect(&reset_query(2));
        peer.send(&all(2, 5));
        assert!(is_last(log, &Logged::Data(data(5))));
        // The session is another: the client drops all data, and asks for all.
        peer.expect(&serial_query(2, SESSION, 5));
        peer.send(&response(2, 7));
        let code = ErrorCode::CORRUPT_DATA;
        assert_eq!(peer.report(), Some((code, 2)));
        let mut peer = cache.asked(&reset_query(2));
        let new = data_of(7, 1, 20);
        peer.send(&[&response(2, 7), new.as_bytes()].concat());
        assert!(is_last(log, &Logged::Data(new)));
        peer
    });
    let other = "unit of another session";
    let expected = [
        Logged::Data(data(1)),
        Logged::Data(data(2)),
        Logged::Data(data(5)),
        Logged::Dropped,
        Logged::Failed(other.to_string()),
        Logged::Data(data_of(7, 1, 20)),
    ];
    assert_eq!(events, expected);
}

/// A client asks a cache without data again. Data that it can't refresh are kept until they expire.
#[test]
fn no_data_and_expired_data() {
    let _alone = alone();
    let cache = Played::new();
    let options = ClientOptions {
        expire: Some(milliseconds(2500)),
        ..options()
    };
    let expired = Logged::Failed("the data have expired".to_string());
    let events = follow(cache.address(), options, |log| {
        let mut peer = cache.asked(&reset_query(2));
        for _ in 0..2 {
            peer.send(&report(2, ErrorCode::NO_DATA_AVAILABLE));
            peer.expect(&reset_query(2));
        }
        let before = Instant::now();
        peer.send(&all(2, 1));
        assert!(is_last(log, &Logged::Data(data(1))));
        drop(peer);
        // It connects again and again. After a serial query without an answer it asks for all data,
        // in the version that the cache answered in.
        drop(cache.asked(&serial_query(2, SESSION, 1)));
        drop(cache.asked(&reset_query(2)));
        assert!(holds(|| log.lock().unwrap().events.contains(&expired)));
        // The client's clock counts whole milliseconds.
        assert!(before.elapsed() >= milliseconds(2499));
    });
    let dropped = events
        .iter()
        .position(|event| *event == Logged::Dropped)
        .unwrap();
    assert_eq!(events[..2], [events[0].clone(), events[0].clone()]);
    assert_eq!(events[2], Logged::Data(data(1)));
    let closed = "the cache closed the connection".to_string();
    assert_eq!(events[3], Logged::Failed(closed));
    assert_eq!(events.get(dropped + 1), Some(&expired));
}

/// A client that loads data once fails by the report of a cache that has none.
#[test]
fn a_cache_without_data() {
    let _alone = alone();
    let code = ErrorCode::NO_DATA_AVAILABLE;
    let plays = Box::new(move |mut peer: Peer| peer.send(&report(2, code)));
    let (error, _) = fetch_played(plays, options());
    assert!(matches!(error, ClientError::NoData(_)), "{error:?}");
    let reported = error.reported().map(|report| report.code);
    assert_eq!(reported, Some(code));
    assert_eq!(
        error.to_string(),
        r#"the cache reports an error: No Data Available, "so it is""#
    );
}

/// Ends an answer to a reset query after this many bytes: closes the connection, or resets it by
/// not reading the query.
fn stops_after(cache: &Played, answer: &[u8], resets: bool) -> ClientError {
    let client = Client::new(cache.address().to_string(), options());
    std::thread::scope(|scope| {
        let fetched = scope.spawn(|| client.fetch());
        let mut peer = cache.accept();
        if resets {
            peer.is_sent_to();
        } else {
            peer.expect(&reset_query(2));
        }
        peer.try_send(answer);
        drop(peer);
        // If no byte came a client asks in lower versions.
        while !fetched.is_finished() {
            drop(cache.within(milliseconds(1)));
        }
        fetched.join().unwrap().unwrap_err()
    })
}

/// An answer to a reset query that is truncated after any byte yields no data; changes are applied
/// completely or not at all.
#[test]
fn caches_that_stop() {
    let _alone = alone();
    let cache = Played::new();
    let (whole, delta) = (all(2, 1), changed(1, 2));
    for length in 0..2 * whole.len() {
        let answer = &whole[..length / 2];
        let error = stops_after(&cache, answer, length % 2 == 1);
        assert!(matches!(
            error,
            ClientError::Closed | ClientError::Io(_) | ClientError::Refused(_)
        ));
    }
    for length in 0..=delta.len() {
        let cache = Played::new();
        let events = follow(cache.address(), options(), |log| {
            let mut peer = cache.asked(&reset_query(2));
            peer.send(&[whole.clone(), notify(2, SESSION, 2)].concat());
            peer.expect(&serial_query(2, SESSION, 1));
            peer.send(&delta[..length]);
            drop(peer);
            let serial = if length == delta.len() { 2 } else { 1 };
            // If the answer is incomplete it asks for all data.
            let query = if length == delta.len() {
                serial_query(2, SESSION, serial)
            } else {
                reset_query(2)
            };
            drop(cache.asked(&query));
            assert!(log
                .lock()
                .unwrap()
                .events
                .contains(&Logged::Data(data(serial))));
        });
        let had = events
            .iter()
            .filter(|event| !matches!(event, Logged::Failed(_)));
        let expected = [Logged::Data(data(1)), Logged::Data(data(2))];
        let count = 1 + usize::from(length == delta.len());
        assert_eq!(had.cloned().collect::<Vec<_>>(), expected[..count]);
    }
}

/// An end of data of the session (RFC 8210 section 5.8).
fn end_of(serial: u32) -> Vec<u8> {
    let end = Data::new(2, SESSION, serial, None);
    end.unwrap().into_bytes()
}

/// The bytes after a query, the client's error, and the code of the report.
type Refused = (Vec<u8>, &'static str, Option<ErrorCode>);

/// Sequences that are refused.
fn refused_sequences() -> Vec<Refused> {
    let sequence = |units: &[&[u8]]| answer(2, &[&units.concat()[..], &end_of(1)].concat());
    let announced = prefix(1, 1);
    let mut old = announced.clone();
    old[0] = 1;
    let duplicate = Some(ErrorCode::DUPLICATE_ANNOUNCEMENT_RECEIVED);
    let unknown = Some(ErrorCode::WITHDRAWAL_OF_UNKNOWN_RECORD);
    let unexpected = Some(ErrorCode::UNEXPECTED_PROTOCOL_VERSION);
    let texts = [
        "duplicate announcement, at byte 20",
        "withdrawal of an unknown record, at byte 0",
        "unit of another version than the session",
    ];
    vec![
        (sequence(&[&announced, &announced]), texts[0], duplicate),
        (sequence(&[&prefix(0, 1)]), texts[1], unknown),
        (sequence(&[&prefix(0, 1), &announced]), texts[1], unknown),
        (sequence(&[&old]), texts[2], unexpected),
    ]
}

/// Units that aren't allowed at that point.
fn misplaced() -> Vec<Refused> {
    let text = "unit is not allowed here";
    let code = Some(ErrorCode::UNSUPPORTED_PDU_TYPE);
    let mut other = end_of(1);
    other[3] = 1;
    let mut rows = vec![(
        answer(2, &other),
        "unit of another session",
        Some(ErrorCode::CORRUPT_DATA),
    )];
    let inside = [response(2, SESSION), reset_query(2)];
    rows.extend(inside.map(|unit| (answer(2, &unit), text, code)));
    let first = [
        end_of(1),
        vec![2, 8, 0, 0, 0, 0, 0, 8],
        reset_query(2),
        prefix(1, 1),
    ];
    rows.extend(first.map(|unit| (unit, text, code)));
    let mut key = common::KEY.to_vec();
    key[0] = 0;
    let lower = [
        bytes_of(&Unit::CacheResponse(CacheResponse {
            version: 0,
            session: 1,
        })),
        key,
    ];
    rows.push((lower.concat(), "version does not have such payloads", code));
    rows
}

/// The client's error on an answer, and the code of its report.
fn fetch_refused(cache: &Played, bytes: &[u8]) -> (String, Option<ErrorCode>) {
    let client = Client::new(cache.address().to_string(), options());
    std::thread::scope(|scope| {
        let fetched = scope.spawn(|| client.fetch());
        let mut peer = cache.asked(&reset_query(2));
        peer.try_send(bytes);
        let report = peer.report();
        assert!(report.map_or(true, |report| report.1 == bytes[0]));
        drop(peer);
        let error = fetched.join().unwrap().unwrap_err();
        (error.to_string(), report.map(|report| report.0))
    })
}

#[test]
fn bad_answers() {
    let _alone = alone();
    let cache = Played::new();
    for (bytes, text, code) in refused_sequences().into_iter().chain(misplaced()) {
        assert_eq!(
            fetch_refused(&cache, &bytes),
            (text.to_string(), code),
            "{bytes:02x?}"
        );
    }
    for row in common::hostile_lengths() {
        let (_, kind, _, _, fault) = row;
        let input = common::hostile_input(row);
        if input[0] != 2 && kind != 10 {
            // The version comes first (RFC 8210 section 7).
            let other = "unit of another version than the session".to_string();
            let bytes = [response(2, SESSION), input].concat();
            let code = Some(ErrorCode::UNEXPECTED_PROTOCOL_VERSION);
            assert_eq!(fetch_refused(&cache, &bytes), (other, code));
            continue;
        }
        let code = match fault {
            _ if kind == 10 => None,
            Fault::UnitType(_) => Some(ErrorCode::UNSUPPORTED_PDU_TYPE),
            Fault::UnitVersion(_) => Some(ErrorCode::UNSUPPORTED_PROTOCOL_VERSION),
            Fault::EmptyProviders => Some(ErrorCode::ASPA_PROVIDER_LIST_ERROR),
            _ => Some(ErrorCode::CORRUPT_DATA),
        };
        let bytes = [response(2, SESSION), input].concat();
        assert_eq!(
            fetch_refused(&cache, &bytes),
            (format!("{fault}, at byte 8"), code)
        );
    }
    for (length, most, text) in [
        (33, 33, "prefix length too large, at byte 8"),
        (24, 33, "max-length too large, at byte 8"),
        (24, 23, "max-length smaller than prefix length, at byte 8"),
    ] {
        let mut prefix = prefix(1, 1);
        (prefix[9], prefix[10]) = (length, most);
        let bytes = [response(2, SESSION), prefix].concat();
        let refused = (text.to_string(), Some(ErrorCode::CORRUPT_DATA));
        assert_eq!(fetch_refused(&cache, &bytes), refused);
    }
}

/// What a cache does after a query.
type Plays = Box<dyn FnOnce(Peer)>;

/// Sends a unit over and over.
fn flood(unit: Vec<u8>, count: usize) -> Plays {
    Box::new(move |mut peer| {
        (0..count).for_each(|_| peer.try_send(&unit));
        hold(peer);
    })
}

/// Sends a cache response, and then a unit over and over.
fn flood_answer(unit: &[u8]) -> Plays {
    let unit = unit.to_vec();
    Box::new(move |mut peer| {
        peer.send(&response(2, SESSION));
        flood(unit, 30_000)(peer);
    })
}

/// Sends a byte now and then.
fn slow(bytes: Vec<u8>) -> Plays {
    Box::new(|mut peer| {
        for byte in bytes {
            if peer.stream.get_mut().write_all(&[byte]).is_err() {
                return;
            }
            std::thread::sleep(milliseconds(20));
        }
        hold(peer);
    })
}

/// A client disconnects from a cache that stalls, is slow, or floods within a bounded time, and
/// reports the reason.
#[test]
fn hostile_caches() {
    let _alone = alone();
    let (too_slow, too_long) = ("the cache is too slow", "the answer is too long");
    let mut key = vec![2, 9, 1, 0, 0, 0, 0xff, 0xff];
    key.resize(65535, 0);
    let four_gigabytes = [2, 9, 1, 0, 0xff, 0xff, 0xff, 0xff];
    let rows: [(Plays, &str); 7] = [
        (Box::new(hold), too_slow),
        (slow(all(2, 1)), too_slow),
        (slow(vec![2, 3]), too_slow),
        (flood(notify(2, SESSION, 1), 300_000), too_slow),
        (flood_answer(&key), too_long),
        (flood_answer(&prefix(0, 1)), too_long),
        (
            flood_answer(&four_gigabytes),
            "unit is longer than 65535 bytes, at byte 8",
        ),
    ];
    for (plays, text) in rows {
        let mut options = ClientOptions {
            bytes: 100_000,
            ..options()
        };
        if text == too_slow {
            options.response = milliseconds(300);
        }
        let (error, time) = fetch_played(plays, options);
        assert_eq!(error.to_string(), text);
        assert!(time < LATE, "{text} comes late");
    }
    // The number of units is limited, too.
    let options = ClientOptions {
        units: 3,
        ..options()
    };
    let plays = Box::new(|mut peer: Peer| peer.send(&all(2, 1)));
    let (error, _) = fetch_played(plays, options);
    assert!(matches!(error, ClientError::TooLong));
}

/// After a report a client reads few bytes of a cache that floods the connection.
#[test]
fn floods_after_a_report() {
    const MOST: usize = 1 << 24; // more than the system buffers
    let _alone = alone();
    let (count, counted) = std::sync::mpsc::channel();
    let plays = Box::new(move |mut peer: Peer| {
        peer.send(&data(1).as_bytes()[..20]); // out of place
        let stream = peer.stream.get_mut();
        let mut sent = 0;
        while sent < MOST && stream.write_all(&[0; 4096]).is_ok() {
            sent += 4096;
        }
        count.send(sent).unwrap();
    });
    let (error, _) = fetch_played(plays, options());
    assert!(matches!(error, ClientError::Breach { .. }), "{error}");
    assert!(counted.recv().unwrap() < MOST);
}

/// An answer with as many payload units, or bytes of these, as are allowed is accepted, and one more
/// is refused.
#[test]
fn limits() {
    let _alone = alone();
    let bytes = data(1).as_bytes().len() - end_of(1).len();
    let units = data(1).len() as u64;
    let rows = [
        (bytes, units, Ok(data(1))),
        (bytes - 1, units, Err("the answer is too long".to_string())),
        (bytes, units - 1, Err("the answer is too long".to_string())),
    ];
    for (bytes, units, expected) in rows {
        let options = ClientOptions {
            bytes,
            units,
            ..options()
        };
        let cache = Played::new();
        let client = Client::new(cache.address().to_string(), options);
        std::thread::scope(|scope| {
            let fetched = scope.spawn(|| client.fetch());
            let mut peer = cache.asked(&reset_query(2));
            peer.send(&all(2, 1));
            let fetched = fetched.join().unwrap();
            assert_eq!(fetched.map_err(|error| error.to_string()), expected);
        });
    }
}

/// The reason why a client gets nothing from a cache, and the time until it reports that.
fn fetch_played(plays: Plays, options: ClientOptions) -> (ClientError, Duration) {
    let cache = Played::new();
    let client = Client::new(cache.address().to_string(), options);
    std::thread::scope(|scope| {
        let began = Instant::now();
        let fetched = scope.spawn(move || (client.fetch(), began.elapsed()));
        plays(cache.asked(&reset_query(2)));
        let (fetched, time) = fetched.join().unwrap();
        (fetched.unwrap_err(), time)
    })
}

/// Waits until the peer closes.
fn hold(mut peer: Peer) {
    let _ = peer.is_closed();
}

/// A cache that stalls after each byte of an answer.
#[test]
fn caches_that_stall() {
    let _alone = alone();
    let whole = all(2, 1);
    std::thread::scope(|scope| {
        for length in 0..whole.len() {
            let whole = &whole;
            scope.spawn(move || {
                let cache = Played::new();
                let options = ClientOptions {
                    response: milliseconds(500),
                    ..options()
                };
                let client = Client::new(cache.address().to_string(), options);
                std::thread::scope(|scope| {
                    let fetched = scope.spawn(|| client.fetch());
                    let mut peer = cache.accept();
                    peer.send(&whole[..length]);
                    let error = fetched.join().unwrap().unwrap_err();
                    assert!(matches!(error, ClientError::TooSlow), "{error:?}");
                });
            });
        }
    });
}

/// A silent cache gets one query, and nothing after it.
#[test]
fn a_query_is_sent_once() {
    let _alone = alone();
    let cache = Played::new();
    let options = ClientOptions {
        response: milliseconds(300),
        ..options()
    };
    let client = Client::new(cache.address().to_string(), options);
    std::thread::scope(|scope| {
        let fetched = scope.spawn(|| client.fetch());
        let mut peer = cache.asked(&reset_query(2));
        assert!(peer.unit().is_none(), "the client says more");
        let error = fetched.join().unwrap().unwrap_err();
        assert!(matches!(error, ClientError::TooSlow), "{error:?}");
    });
}

/// A stopped client ends soon, whatever it is doing.
#[test]
fn stopped() {
    let _alone = alone();
    let cache = Played::new();
    let events = follow(cache.address(), options(), |_| {
        drop(cache.asked(&reset_query(2)));
    });
    assert!(events.len() <= 1);
    let cache = Played::new();
    follow(cache.address(), options(), |_| {
        cache.asked(&reset_query(2)).send(&all(2, 1)[..30]);
    });
    let cache = Played::new();
    follow(cache.address(), options(), |log| {
        let mut peer = cache.accept();
        peer.send(&all(2, 1));
        assert!(is_last(log, &Logged::Data(data(1))));
    });
    // It ends when it is stopped, and returns the data.
    let cache = Played::new();
    let client = Client::new(cache.address().to_string(), options());
    std::thread::scope(|scope| {
        let running = scope.spawn(|| client.run(|_| ControlFlow::Break(())));
        cache.accept().send(&all(2, 1));
        assert_eq!(running.join().unwrap(), Some(data(1)));
    });
}

/// No client wakes before bytes come or it is time, with a connection or without one.
#[test]
fn no_thread_wakes() {
    let _alone = alone();
    let cache = Played::new();
    // Nothing listens at the second address.
    let addresses = [cache.address(), SocketAddr::from(([127, 0, 0, 1], 1))];
    let patient = || ClientOptions {
        pause: PATIENCE,
        ..options()
    };
    let clients = addresses.map(|address| Client::new(address.to_string(), patient()));
    std::thread::scope(|scope| {
        let named = || std::thread::Builder::new().name("rtr client".to_string());
        let stopping = clients.iter().map(|client| {
            let run = || client.run(|_| ControlFlow::Continue(()));
            named().spawn_scoped(scope, run).unwrap();
            Stopping(client)
        });
        let stopping: Vec<Stopping<'_>> = stopping.collect();
        let mut peer = cache.asked(&reset_query(2));
        peer.send(&all(2, 1));
        assert!(stay_asleep(&["rtr client"]));
        drop(stopping);
    });
}
