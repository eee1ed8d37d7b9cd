//! A cache's connection without sockets or a clock: when a limit ends it, and what follows its end.
//! The limits are those of `docs/SESSIONS.md` ("The cache").
#![cfg(feature = "std")]

mod peers;

use peers::{data, data_of, milliseconds, reset_query, SESSION};
use rtr_wire::*;
use std::io::ErrorKind;

/// A connection, made at time 0, to a cache with data of serial number 1.
struct Joined {
    cache: Cache,
    served: Served,
}

const SLOW: &str = "the router is too slow";

impl Joined {
    fn new(options: ServerOptions) -> Joined {
        let cache = Cache::new(options);
        assert_eq!(cache.update(data(1)), Ok(true));
        let served = Served::new(&cache.at(0));
        Joined { cache, served }
    }

    /// One that is in the middle of an answer, which began at this time.
    fn answering(options: ServerOptions, now: u64) -> Joined {
        let mut joined = Joined::new(options);
        joined.receives(now, &reset_query(2));
        assert_eq!(joined.step(now), "send");
        joined
    }

    fn receives(&mut self, now: u64, bytes: &[u8]) {
        self.served.received(&self.cache.at(now), bytes);
    }

    fn sends(&mut self, now: u64, count: usize) {
        self.served.sent(&self.cache.at(now), count);
    }

    /// Sends all unsent bytes, and returns them.
    fn sends_all(&mut self, now: u64) -> Vec<u8> {
        let bytes = self.served.output().concat();
        self.sends(now, bytes.len());
        assert_eq!(self.served.output(), [&[], &[]]);
        bytes
    }

    /// The next step at this time, or the text of why the connection ends.
    fn step(&mut self, now: u64) -> String {
        match self.served.next(&self.cache.at(now)) {
            ServedStep::Receive => "receive".to_string(),
            ServedStep::Send => "send".to_string(),
            ServedStep::Finish => "finish".to_string(),
            ServedStep::Close => "close".to_string(),
            ServedStep::Ended(error) => error.to_string(),
            step => panic!("{step:?}"),
        }
    }

    fn wakes(&self) -> u64 {
        self.served.wakes(&self.cache.at(0))
    }

    /// Checks that it has this step until a time, and these ones then.
    fn until(&mut self, time: u64, step: &str, then: &[&str]) {
        assert_eq!(self.step(time - 1), step);
        assert_eq!(self.wakes(), time);
        for step in then {
            assert_eq!(self.step(time), *step);
        }
    }
}

/// The code of a report of version 2.
fn report_code(bytes: &[u8]) -> ErrorCode {
    match Unit::first(bytes) {
        Ok((Unit::ErrorReport(report), [])) if report.version == 2 => report.code,
        other => panic!("{other:?}"),
    }
}

/// The default limits and others, and in milliseconds those of the first query, a unit, the time
/// between queries, a write and an answer.
fn limits() -> [(ServerOptions, [u64; 5]); 2] {
    let others = ServerOptions {
        first_query: milliseconds(7001),
        unit: milliseconds(3002),
        idle: milliseconds(50_003),
        write: milliseconds(2004),
        response: milliseconds(9005),
        ..ServerOptions::default()
    };
    [
        (
            ServerOptions::default(),
            [30_000, 10_000, 25 * 3_600_000, 30_000, 600_000],
        ),
        (others, [7001, 3002, 50_003, 2004, 9005]),
    ]
}

/// Each limit ends a connection at its time, and no millisecond earlier.
#[test]
fn limits_of_time() {
    for (options, [first, unit, idle, write, response]) in limits() {
        let mut silent = Joined::new(options.clone());
        silent.until(first, "receive", &[SLOW, "close", "close"]);
        assert!(!silent.served.is_served());

        let mut inside = Joined::new(options.clone());
        inside.receives(1000, &[2, 2]);
        inside.receives(2000, &[0]);
        inside.until(1000 + unit, "receive", &[SLOW, "close"]);

        let mut idle_client = Joined::answering(options.clone(), 1000);
        idle_client.sends_all(1500);
        idle_client.until(1000 + idle, "receive", &[SLOW, "close"]);

        let mut unread = Joined::answering(options.clone(), 1000);
        unread.sends(1500, 1);
        unread.until(1500 + write, "send", &[SLOW, "close"]);
        assert_eq!(unread.served.output(), [&[], &[]]);

        let mut slow = Joined::answering(options, 1000);
        let mut now = 1000;
        while now + write < 1000 + response {
            now += write - 1;
            slow.sends(now, 1);
        }
        slow.until(1000 + response, "send", &[SLOW, "close"]);
    }
}

/// The unit that follows an answer has its own time, from when the answer was sent.
#[test]
fn a_unit_behind_an_answer() {
    let mut joined = Joined::new(ServerOptions::default());
    joined.receives(1000, &[&reset_query(2)[..], &[2, 2]].concat());
    assert_eq!(joined.step(1000), "send");
    joined.sends_all(21_000);
    joined.until(31_000, "receive", &[SLOW, "close"]);
}

/// A report and the client's close have 10 seconds, from the end on.
#[test]
fn the_last_report() {
    let refused = || {
        let mut joined = Joined::new(ServerOptions::default());
        // A cache reset (RFC 8210 section 5.9).
        joined.receives(1000, &[2, 8, 0, 0, 0, 0, 0, 8]);
        assert_eq!(joined.wakes(), 0);
        assert_eq!(joined.step(1000), "unit is not a query");
        assert!(!joined.served.is_served());
        joined
    };
    let mut unread = refused();
    unread.sends(5000, 1);
    unread.until(11_000, "send", &["close", "close"]);

    let mut read = refused();
    assert_eq!(read.step(1000), "send");
    // Newer data don't cut a report.
    for serial in 2..=9 {
        assert_eq!(read.cache.update(data(serial)), Ok(true));
    }
    assert_eq!(read.step(1000), "send");
    assert_eq!(
        report_code(&read.sends_all(5000)),
        ErrorCode::INVALID_REQUEST
    );
    assert_eq!(read.step(5000), "finish");
    read.receives(6000, &reset_query(2));
    read.until(11_000, "receive", &["close", "close"]);

    let mut closing = refused();
    closing.sends_all(1000);
    assert_eq!(closing.step(1000), "finish");
    assert_eq!(closing.step(1000), "receive");
    closing.receives(1200, &[]);
    assert_eq!(closing.step(1200), "close");
}

/// A last report has the time of the options, and an answer is cut by as many newer data as they
/// say.
#[test]
fn reports_and_newer_data_by_the_options() {
    for (report, behind) in [(2001, 0), (60_000, 5)] {
        let options = ServerOptions {
            report: milliseconds(report),
            behind,
            ..ServerOptions::default()
        };
        let mut unread = Joined::new(options.clone());
        unread.receives(1000, &[2, 8, 0, 0, 0, 0, 0, 8]);
        assert_eq!(unread.step(1000), "unit is not a query");
        unread.until(1000 + report, "send", &["close"]);

        let mut slow = Joined::answering(options, 1000);
        for serial in 2..2 + u32::try_from(behind).unwrap() {
            assert_eq!(slow.cache.update(data(serial)), Ok(true));
            assert_eq!(slow.step(1000), "send");
        }
        assert_eq!(slow.cache.update(data(99)), Ok(true));
        assert_eq!(slow.step(1000), "the router is too far behind");
    }
}

/// A connection that breaks is closed at once, with its answer unsent and its input unheard. A
/// reason that it had before stays.
#[test]
fn connections_that_break() {
    let mut sending = Joined::answering(ServerOptions::default(), 1000);
    sending.served.lost(ErrorKind::ConnectionReset.into());
    assert!(!sending.served.is_served());
    assert_eq!(sending.served.output(), [&[], &[]]);
    assert_eq!(sending.wakes(), 0);
    assert_eq!(sending.step(1000), "connection reset");
    assert_eq!(sending.wakes(), 0);
    sending.receives(1000, &reset_query(2));
    assert_eq!(sending.step(1000), "close");

    let mut waiting = Joined::new(ServerOptions::default());
    waiting.receives(1000, &[2, 2]);
    assert_eq!(waiting.step(1000), "receive");
    waiting.served.lost(ErrorKind::ConnectionReset.into());
    assert_eq!(waiting.step(1000), "connection reset");
    assert_eq!(waiting.step(1000), "close");

    let mut ending = Joined::new(ServerOptions::default());
    ending.receives(1000, &[2, 8, 0, 0, 0, 0, 0, 8]);
    assert_eq!(ending.step(1000), "unit is not a query");
    ending.served.lost(ErrorKind::BrokenPipe.into());
    assert_eq!(ending.step(1000), "close");
}

/// The third newer data end an answer, and so do data of another session.
#[test]
fn answers_that_are_cut() {
    for (session, text) in [
        (SESSION, "the router is too far behind"),
        (7, "the data are of a new session"),
    ] {
        let mut joined = Joined::new(ServerOptions::default());
        for serial in 2..=9 {
            assert_eq!(joined.cache.update(data(serial)), Ok(true));
        }
        joined.receives(1000, &reset_query(2));
        assert_eq!(joined.step(1000), "send");
        joined.sends(1000, 1);
        for serial in 10..=11 {
            assert_eq!(joined.cache.update(data(serial)), Ok(true));
            assert_eq!(joined.step(1000), "send");
        }
        joined.cache.change_session();
        let newest = data_of(session, 12, 20);
        assert_eq!(joined.cache.update(newest), Ok(true));
        assert_eq!(joined.step(1000), text);
        assert_eq!(joined.served.output(), [&[], &[]]);
        assert_eq!(joined.wakes(), 0);
        assert_eq!(joined.step(1000), "close");
    }
}

/// A client that closes gets the answers to its whole queries before. Between units its close has
/// no reason; within a unit the unit is refused.
#[test]
fn clients_that_close() {
    for queries in 0..=2 {
        for rest in [&[][..], &[2, 2]] {
            let mut joined = Joined::new(ServerOptions::default());
            joined.receives(1000, &reset_query(2).repeat(queries));
            joined.receives(1000, rest);
            joined.receives(1000, &[]);
            for _ in 0..queries {
                assert_eq!(joined.step(1000), "send");
                assert_eq!(joined.sends_all(1000), peers::answer(&data(1), 2));
            }
            if rest.is_empty() {
                assert_eq!(joined.step(1000), "close");
            } else {
                let text = format!("unexpected end of input, at byte {}", 8 * queries);
                assert_eq!(joined.step(1000), text);
                assert_eq!(joined.step(1000), "send");
                assert_eq!(
                    report_code(&joined.sends_all(1000)),
                    ErrorCode::CORRUPT_DATA
                );
                assert_eq!(joined.step(1000), "close");
            }
            assert!(!joined.served.is_served());
        }
    }
}

/// A connection above the limit gets a report of code 1. One that is in the middle of an answer
/// ends without one.
#[test]
fn connections_that_are_refused() {
    let mut joined = Joined::new(ServerOptions::default());
    for _ in 0..2 {
        joined.served.refuse(&joined.cache.at(1000));
    }
    assert_eq!(joined.step(1000), "too many connections");
    assert_eq!(joined.step(1000), "send");
    joined.served.refuse(&joined.cache.at(1000));
    assert_eq!(
        report_code(&joined.sends_all(1000)),
        ErrorCode::INTERNAL_ERROR
    );
    assert_eq!(joined.step(1000), "finish");
    joined.until(11_000, "receive", &["close"]);

    let mut late = Joined::answering(ServerOptions::default(), 1000);
    late.sends(1000, 1);
    late.served.refuse(&late.cache.at(1000));
    assert_eq!(late.step(1000), "too many connections");
    assert_eq!(late.served.output(), [&[], &[]]);
    assert_eq!(late.step(1000), "close");
}

/// A socket that fails ends the connection at once, for this reason if it was open.
#[test]
fn sockets_that_fail() {
    let mut joined = Joined::answering(ServerOptions::default(), 1000);
    let size = joined.served.output().concat().len();
    joined.sends(1000, size + 1);
    assert_eq!(joined.served.output().concat().len(), size);
    joined.served.lost(ErrorKind::BrokenPipe.into());
    assert_eq!(joined.wakes(), 0);
    assert_eq!(joined.step(1000), "broken pipe");
    assert_eq!(joined.step(1000), "close");

    let mut refused = Joined::new(ServerOptions::default());
    refused.served.refuse(&refused.cache.at(0));
    assert_eq!(refused.step(0), "too many connections");
    refused.served.lost(ErrorKind::BrokenPipe.into());
    assert_eq!(refused.step(0), "close");
}
