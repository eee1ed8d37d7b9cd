//! A router without sockets or a clock: its data, its output, and late reports.
#![cfg(feature = "std")]

mod peers;

use peers::*;
use rtr_wire::*;
use std::io::ErrorKind;

fn options() -> ClientOptions {
    ClientOptions {
        version: 2,
        ..ClientOptions::default()
    }
}

/// A whole answer to a reset query.
fn all(serial: u32) -> Vec<u8> {
    answer(&data(serial), 2)
}

/// The answer to a serial query.
fn changed(from: u32, to: u32) -> Vec<u8> {
    let changes = data(from).delta_to(&data(to)).unwrap();
    [&response(2, SESSION), changes.as_bytes()].concat()
}

fn notify(serial: u32) -> Vec<u8> {
    let mut unit = vec![2, 0];
    unit.extend(SESSION.to_be_bytes());
    unit.extend([0, 0, 0, 12]);
    unit.extend(serial.to_be_bytes());
    unit
}

/// The bytes that the router sends, at once.
fn sent(router: &mut Router) -> Vec<u8> {
    let output = router.output().to_vec();
    router.sent(output.len());
    output
}

/// A router that is connected at time 0 and has sent its query.
fn asked() -> Router {
    let mut router = Router::new(&options(), 0);
    assert!(matches!(router.next(0), Step::Connect));
    router.connected(0);
    assert_eq!(sent(&mut router), reset_query(2));
    router
}

/// Passes bytes to the router's buffer, at most this many at a time.
fn read(router: &mut Router, bytes: &[u8], most: usize, now: u64) -> Vec<Step> {
    let (mut rest, mut steps) = (bytes, Vec::new());
    while !rest.is_empty() {
        match router.next(now) {
            Step::Wait => {
                let room = router.room();
                let count = room.len().min(rest.len()).min(most);
                assert!(count > 0, "there is room");
                room[..count].copy_from_slice(&rest[..count]);
                router.filled(count);
                rest = &rest[count..];
            }
            step => steps.push(step),
        }
    }
    loop {
        match router.next(now) {
            Step::Wait => return steps,
            step => steps.push(step),
        }
    }
}

/// Expects a single step, with new data.
fn data_step(steps: Vec<Step>) -> Changes {
    match <[Step; 1]>::try_from(steps) {
        Ok([Step::Data(changes)]) => changes,
        other => panic!("{other:?}"),
    }
}

/// Data that a caller keeps don't change, whatever follows, and share their bytes with the
/// router's. The same holds for the changes of each event, even if they are computed later.
#[test]
fn data_that_are_kept() {
    let mut router = asked();
    let mut kept = Vec::new();
    let changes = data_step(read(&mut router, &all(1), 7, 0));
    kept.push((router.data().unwrap().clone(), changes));
    for serial in 2..=9 {
        let now = u64::from(serial) * 10_000;
        router.ask_now();
        assert!(matches!(router.next(now), Step::Wait));
        assert_eq!(
            sent(&mut router),
            serial_query(2, SESSION, serial - 1),
            "{serial}"
        );
        // Every third answer is a cache reset, and then all data.
        let answer = if serial % 3 == 0 {
            let reset = [2, 8, 0, 0, 0, 0, 0, 8];
            assert!(read(&mut router, &reset, 8, now).is_empty());
            assert_eq!(sent(&mut router), reset_query(2));
            all(serial)
        } else {
            changed(serial - 1, serial)
        };
        let changes = data_step(read(&mut router, &answer, 11, now));
        let data = router.data().unwrap();
        kept.push((data.clone(), changes));
        let (last, _) = kept.last().unwrap();
        assert!(std::ptr::eq(data.as_bytes(), last.as_bytes()));
    }
    let mut before = Data::new(2, SESSION, 1, None).unwrap();
    for (serial, (kept, changes)) in (1..).zip(kept) {
        assert_eq!(kept, data(serial));
        assert_eq!(changes.clone(), before.delta_to(&kept).unwrap());
        assert_eq!(before.apply(&changes).as_ref(), Ok(&kept));
        before = kept;
    }
    assert_eq!(router.into_data(), Some(data(9)));
}

/// A request that comes beside the loss of a connection, or a failed connect, outlives that: the
/// router connects as soon as the pause allows, not when it would connect anyway.
#[test]
fn requests_at_a_loss() {
    let lose = |router: &mut Router, now, asks_first| {
        if asks_first {
            router.ask_now();
        }
        router.lost(now, ErrorKind::ConnectionReset.into());
        if !asks_first {
            router.ask_now();
        }
        assert!(matches!(router.next(now), Step::Close));
        assert!(matches!(router.next(now), Step::Failed(ClientError::Io(_))));
    };
    for asks_first in [false, true] {
        let mut router = asked();
        data_step(read(&mut router, &all(1), usize::MAX, 0));
        lose(&mut router, 5000, asks_first);
        assert!(matches!(router.next(5000), Step::Connect));
        lose(&mut router, 5000, asks_first);
        assert!(matches!(router.next(5000), Step::Wait));
        assert_eq!(router.wakes(), 6000);
        assert!(matches!(router.next(6000), Step::Connect));
    }
}

/// Two threads that use the changes of an event at once see the same ones.
#[test]
fn changes_of_two_threads() {
    for _ in 0..20 {
        let mut router = asked();
        data_step(read(&mut router, &all(1), usize::MAX, 0));
        router.received(&notify(2));
        assert!(matches!(router.next(5000), Step::Wait));
        let changes = data_step(read(&mut router, &changed(1, 2), usize::MAX, 5000));
        let bytes = || changes.as_bytes().as_ptr() as usize;
        let seen = std::thread::scope(|scope| {
            let threads = [scope.spawn(bytes), scope.spawn(bytes)];
            threads.map(|thread| thread.join().unwrap())
        });
        assert_eq!(seen[0], seen[1]);
        assert_eq!(changes, data(1).delta_to(&data(2)).unwrap());
    }
}

/// A query and a report are sent a byte at a time, and bytes that arrive meanwhile are read.
#[test]
fn partial_sends() {
    let mut router = Router::new(&options(), 0);
    assert!(matches!(router.next(0), Step::Connect));
    router.connected(0);
    let answer = all(1);
    let mut query = Vec::new();
    for byte in &answer[..8] {
        query.push(router.output()[0]);
        router.sent(1);
        router.received(&[*byte]);
        assert!(matches!(router.next(0), Step::Wait));
    }
    assert_eq!((query, router.output()), (reset_query(2), &[][..]));
    data_step(read(&mut router, &answer[8..], usize::MAX, 0));
    // A unit of version 1 (RFC 8210 section 7): a report of code 8.
    router.received(&[1, 8, 0, 0, 0, 0, 0, 8]);
    assert!(matches!(router.next(0), Step::Close));
    let mut report = Vec::new();
    while let [byte, ..] = *router.output() {
        report.push(byte);
        router.sent(1);
    }
    match Unit::first(&report) {
        Ok((Unit::ErrorReport(report), [])) => {
            assert_eq!(report.code, ErrorCode::UNEXPECTED_PROTOCOL_VERSION);
        }
        other => panic!("{other:?}"),
    }
    assert!(matches!(
        router.next(0),
        Step::Failed(ClientError::Breach { .. })
    ));
}

/// The offset of a refused unit is that in all bytes of its connection, however it was read; that
/// of a refused change is that in the answer.
#[test]
fn offsets() {
    let prefix_of_33_bits = [
        2, 4, 0, 0, 0, 0, 0, 20, 1, 33, 33, 0, 0, 0, 0, 0, 0, 0, 0, 1,
    ];
    for most in [1, 9, usize::MAX] {
        let mut router = asked();
        let (first, notify) = (all(1), notify(2));
        data_step(read(&mut router, &first, most, 0));
        assert!(read(&mut router, &notify, most, 5000).is_empty());
        let front = [response(2, SESSION), prefix(1, 500)].concat();
        let bytes = [&front[..], &prefix_of_33_bits].concat();
        let steps = read(&mut router, &bytes, most, 5000);
        let offset = (first.len() + notify.len() + front.len()) as u64;
        match steps.as_slice() {
            [Step::Close, Step::Failed(ClientError::Refused(refusal))] => {
                assert_eq!(refusal.offset, offset, "{most}");
                assert_eq!(refusal.unit, prefix_of_33_bits);
            }
            other => panic!("{other:?}"),
        }
        assert_eq!(router.data(), Some(&data(1)));
        // The next connection counts anew; its second change is refused.
        assert!(matches!(router.next(router.wakes()), Step::Connect));
        router.connected(6000);
        let bytes = [response(2, SESSION), prefix(1, 500), prefix(1, 500)].concat();
        let end = Data::new(2, SESSION, 2, None).unwrap();
        let bytes = [&bytes, end.as_bytes()].concat();
        let steps = read(&mut router, &bytes, most, 6000);
        match steps.as_slice() {
            [Step::Close, Step::Failed(ClientError::Data { error, unit })] => {
                assert_eq!(error.fault, Fault::Duplicate);
                assert_eq!(error.place.map(|place| place.offset), Some(20));
                assert_eq!(*unit, prefix(1, 500));
            }
            other => panic!("{other:?}"),
        }
    }
}

/// The report of a cache that has no data yet is `NoData`, and the connection stays. One of the same
/// code that ends the session isn't.
#[test]
fn reports_of_no_data() {
    let report = bytes_of(&Unit::ErrorReport(ErrorReport::<&[u8]> {
        version: 2,
        code: ErrorCode::NO_DATA_AVAILABLE,
        parts: None,
    }));
    let said = "the cache reports an error: No Data Available";
    let mut router = asked();
    match &read(&mut router, &report, 5, 0)[..] {
        [Step::Failed(error @ ClientError::NoData(unit))] => {
            assert_eq!(error.reported(), Some(unit));
            assert_eq!(unit.code, ErrorCode::NO_DATA_AVAILABLE);
            assert_eq!(error.to_string(), said);
        }
        other => panic!("{other:?}"),
    }
    let now = router.wakes();
    assert!(matches!(router.next(now), Step::Wait));
    assert_eq!(sent(&mut router), reset_query(2));
    data_step(read(&mut router, &all(1), usize::MAX, now));
    match &read(&mut router, &report, 5, now)[..] {
        [Step::Close, Step::Failed(error @ ClientError::Reported(unit))] => {
            assert_eq!(error.reported(), Some(unit));
            assert_eq!(error.to_string(), said);
        }
        other => panic!("{other:?}"),
    }
    assert_eq!(ClientError::Closed.reported(), None);
}

/// Reports about a connection that was closed or lost change nothing.
#[test]
fn late_reports() {
    let mut router = Router::new(&options(), 0);
    router.connected(0);
    router.received(&all(1));
    router.disconnected(0);
    assert!(matches!(router.next(0), Step::Connect));
    router.received(&all(1)); // which is before the connection
    router.disconnected(0);
    router.connected(0);
    assert!(matches!(router.next(0), Step::Close));
    assert!(matches!(router.next(0), Step::Failed(ClientError::Closed)));
    assert!(matches!(router.next(0), Step::Wait));
    router.lost(0, ErrorKind::TimedOut.into());
    router.received(&[]);
    router.filled(0);
    assert!(matches!(router.next(0), Step::Wait));
    assert_eq!(router.data(), None);
    // Bytes that were read before the loss are processed, and the caller's error is reported.
    let wakes = router.wakes();
    assert!(matches!(router.next(wakes), Step::Connect));
    router.connected(wakes);
    router.received(&all(1));
    router.lost(wakes, ErrorKind::ConnectionReset.into());
    router.received(&all(2));
    assert!(matches!(router.next(wakes), Step::Data(_)));
    assert!(matches!(router.next(wakes), Step::Close));
    match router.next(wakes) {
        Step::Failed(ClientError::Io(error)) => {
            assert_eq!(error.kind(), ErrorKind::ConnectionReset);
        }
        other => panic!("{other:?}"),
    }
    assert_eq!(router.data(), Some(&data(1)));
}

/// A restarted router has neither data nor a connection, and waits longer for a failing cache.
#[test]
fn begins_again() {
    let mut router = asked();
    data_step(read(&mut router, &all(1), usize::MAX, 0));
    router.again();
    assert_eq!((router.data(), router.has_data(0)), (None, false));
    assert!(router.output().is_empty());
    let mut waits = Vec::new();
    let mut now = 10_000;
    for _ in 0..4 {
        assert!(matches!(router.next(now), Step::Connect));
        router.disconnected(now);
        assert!(matches!(router.next(now), Step::Close));
        assert!(matches!(router.next(now), Step::Failed(_)));
        assert!(matches!(router.next(now), Step::Wait));
        waits.push(router.wakes() - now);
        now += 3_600_000;
        router.again();
    }
    assert_eq!(waits, [1000, 2000, 4000, 8000]);
    assert!(matches!(router.next(now), Step::Connect));
    router.connected(now);
    assert_eq!(sent(&mut router), reset_query(2));
    data_step(read(&mut router, &all(2), usize::MAX, now));
    assert_eq!(router.data(), Some(&data(2)));
}

/// The defaults that docs/SESSIONS.md names, and two seconds for a report.
#[test]
fn usual_options() {
    let usual = ClientOptions::default();
    let times = [usual.dial, usual.response, usual.pause, usual.report];
    assert_eq!(
        times.map(|time| time.as_millis()),
        [30_000, 120_000, 1000, 2000]
    );
    assert_eq!(
        (usual.version, usual.bytes, usual.units),
        (1, 128 << 20, 4_000_000)
    );
    assert_eq!([usual.refresh, usual.retry, usual.expire], [None; 3]);
}

#[test]
#[should_panic(expected = "the time of a router goes back")]
fn a_clock_that_goes_back() {
    let mut router = Router::new(&options(), 0);
    let _ = router.next(5);
    let _ = router.next(4);
}

#[test]
#[should_panic(expected = "more bytes were sent than there are")]
fn too_many_bytes_sent() {
    asked().sent(1);
}

#[test]
#[should_panic(expected = "status 5")]
fn too_many_bytes_read() {
    let mut router = asked();
    assert!(matches!(router.next(0), Step::Wait));
    let room = router.room().len();
    router.filled(room + 1);
}
