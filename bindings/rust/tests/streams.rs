//! Readers and writers.
#![cfg(feature = "std")]

mod common;

use common::{hostile_input, hostile_lengths, rows, session};
use common::{CACHE_RESPONSE, END, IPV4, IPV6, KEY, SERIAL_NOTIFY};
use rtr_wire::*;
use std::error::Error as _;
use std::io::{self, Read, Write};

/// A reader that returns at most this many bytes per read, and an error of this kind before each
/// read, if any.
struct Slow<'a> {
    rest: &'a [u8],
    most: usize,
    fails: Option<io::ErrorKind>,
    failed: bool,
}

impl<'a> Slow<'a> {
    fn new(rest: &'a [u8], most: usize, fails: Option<io::ErrorKind>) -> Self {
        Slow {
            rest,
            most,
            fails,
            failed: false,
        }
    }
}

impl Read for Slow<'_> {
    fn read(&mut self, buffer: &mut [u8]) -> io::Result<usize> {
        if let Some(kind) = self.fails {
            self.failed = !self.failed;
            if self.failed {
                return Err(kind.into());
            }
        }
        let most = self.most.min(buffer.len());
        self.rest.read(&mut buffer[..most])
    }
}

/// The ways in which a session is read.
fn ways(input: &[u8]) -> [Slow<'_>; 4] {
    [
        Slow::new(input, usize::MAX, None),
        Slow::new(input, 1, None),
        Slow::new(input, 7, None),
        Slow::new(input, 3, Some(io::ErrorKind::Interrupted)),
    ]
}

/// The units of all rows, which own their bytes.
fn owned() -> Vec<OwnedUnit> {
    rows().into_iter().map(|row| row.1.into_owned()).collect()
}

fn refusal(error: Error) -> Refusal {
    match error {
        Error::Refused(refusal) => refusal,
        other => panic!("{other:?}"),
    }
}

/// A session of all types is read, however its bytes arrive, and written back.
#[test]
fn there_and_back() {
    let session = session();
    for way in ways(&session) {
        let mut reader = Reader::new(way);
        let mut writer = Writer::new(Vec::new());
        let mut offset = 0;
        for (bytes, unit) in rows() {
            assert_eq!(reader.offset(), offset);
            let read = reader.next_unit().expect("it is read");
            assert_eq!(read, Some(unit));
            writer.write(&read.unwrap()).expect("it has a form");
            assert_eq!(reader.bytes(), bytes);
            offset += bytes.len() as u64;
        }
        for _ in 0..3 {
            assert!(matches!(reader.next_unit(), Ok(None)));
            assert_eq!(reader.offset(), offset);
        }
        writer.flush().expect("it is flushed");
        assert_eq!(writer.get_ref(), &session);
        assert_eq!(writer.into_inner(), session);
        assert!(reader.into_inner().rest.is_empty());
    }
}

/// As an iterator, units own their bytes.
#[test]
fn iterated() {
    let session = session();
    let units: Result<Vec<OwnedUnit>, Error> = Reader::new(&session[..]).collect();
    assert_eq!(units.expect("all are read"), owned());
    let mut bytes = Vec::new();
    for unit in owned() {
        let before = bytes.len();
        let size = unit.append(&mut bytes).expect("it has a form");
        assert_eq!(before + size, bytes.len());
    }
    assert_eq!(bytes, session);
}

/// A session truncated at each byte: whole units are read, and then none between two units, or else
/// `Short`, with the offset and the bytes of the unit.
#[test]
fn cut() {
    let session = session();
    for cut in 0..session.len() {
        for way in ways(&session[..cut]) {
            let mut reader = Reader::new(way);
            let mut at = 0;
            for (bytes, unit) in rows() {
                if at + bytes.len() > cut {
                    break;
                }
                assert_eq!(reader.next_unit().expect("it is read"), Some(unit));
                at += bytes.len();
            }
            for _ in 0..2 {
                match reader.next_unit() {
                    Ok(unit) => assert_eq!((unit, at), (None, cut)),
                    Err(error) => {
                        let refusal = refusal(error);
                        assert_eq!((refusal.fault, refusal.offset), (Fault::Short, at as u64));
                        assert_eq!(refusal.unit, session[at..cut]);
                    }
                }
                assert_eq!(reader.offset(), at as u64);
                assert!(reader.bytes().is_empty());
            }
        }
    }
}

/// The iterator ends after the first error.
#[test]
fn ended() {
    let mut reader = Reader::new(&IPV4[..19]);
    assert!(matches!(reader.next(), Some(Err(Error::Refused(_)))));
    assert!(reader.next().is_none());
    let mut reader = Reader::new(Slow::new(IPV4, 1, Some(io::ErrorKind::TimedOut)));
    assert!(matches!(reader.next(), Some(Err(Error::Io(_)))));
    assert!(reader.next().is_none());
}

/// A reader that fails before each byte: its error is the source of the returned one, and nothing
/// is lost.
#[test]
fn failing() {
    let session = session();
    let mut reader = Reader::new(Slow::new(&session, 1, Some(io::ErrorKind::WouldBlock)));
    let mut failures = 0;
    let mut units: Vec<OwnedUnit> = Vec::new();
    loop {
        match reader.next_unit() {
            Ok(Some(unit)) => units.push(unit.into_owned()),
            Ok(None) => break,
            Err(error) => {
                assert_eq!(error.fault(), None);
                let source = error.source().and_then(|source| source.downcast_ref());
                assert_eq!(source.map(io::Error::kind), Some(io::ErrorKind::WouldBlock));
                assert_eq!(io::Error::from(error).kind(), io::ErrorKind::WouldBlock);
                failures += 1;
            }
        }
    }
    assert_eq!((units, failures), (owned(), session.len() + 1));
}

/// A reader that returns an impossible count.
#[test]
fn impossible_count() {
    struct Odd;
    impl Read for Odd {
        fn read(&mut self, buffer: &mut [u8]) -> io::Result<usize> {
            Ok(buffer.len() + 1)
        }
    }
    assert!(matches!(Reader::new(Odd).next_unit(), Err(Error::Io(_))));
}

/// A hostile length is refused before anything but the header is read.
#[test]
fn hostile() {
    for row in hostile_lengths() {
        let input = hostile_input(row);
        let mut reader = Reader::new(&input[..]);
        for _ in 0..2 {
            let refusal = refusal(reader.next_unit().unwrap_err());
            assert_eq!((refusal.fault, refusal.offset), (row.4, 0), "{row:?}");
            assert_eq!(refusal.unit, input[..8]);
        }
        assert_eq!(reader.into_inner().len(), 100);
    }
}

/// No byte after a unit is read.
#[test]
fn nothing_read_ahead() {
    for size in [32, 33, 64, 65, 127, 128, 129, 1000, 40000, 65535] {
        let bytes = [&long_key(size)[..], &[7]].concat();
        let mut reader = Reader::new(&bytes[..]);
        let unit = reader.next_unit().expect("it is read");
        assert_eq!(unit.map(|unit| unit.size()), Some(size));
        assert_eq!(reader.into_inner(), [7]);
    }
}

/// A router key of this size.
fn long_key(size: usize) -> Vec<u8> {
    let mut bytes = KEY.to_vec();
    bytes.resize(size, 0);
    bytes[4..8].copy_from_slice(&u32::to_be_bytes(size as u32));
    bytes
}

/// The buffer grows with the units, up to the longest one.
#[test]
fn buffer_grows() {
    let sizes = [40, 100, 1000, 40000, 40001, 65535, 33];
    let bytes: Vec<u8> = sizes.into_iter().flat_map(long_key).collect();
    let mut reader = Reader::new(&bytes[..]);
    for size in sizes {
        let unit = reader.next_unit().expect("it is read");
        assert_eq!(unit.map(|unit| unit.size()), Some(size));
    }
    assert!(matches!(reader.next_unit(), Ok(None)));
}

/// A prefix that breaks its rule is refused with its bytes and its report, and the next call skips
/// it.
#[test]
fn going_on() {
    let mut refused = IPV4.to_vec();
    refused[9..11].copy_from_slice(&[33, 33]);
    let session = [IPV6, &refused, IPV4].concat();
    let mut reader = Reader::new(&session[..]);
    assert!(matches!(reader.next_unit(), Ok(Some(Unit::Ipv6Prefix(_)))));
    let error = reader.next_unit().unwrap_err();
    assert_eq!(error.to_string(), "prefix length too large, at byte 32");
    assert_eq!(reader.bytes(), refused);
    assert_eq!(reader.offset(), 52);
    let refusal = refusal(error);
    assert_eq!(refusal.unit, refused);
    let report = refusal.report().expect("a report is owed");
    let mut written = Vec::new();
    let size = Unit::ErrorReport(report).append(&mut written);
    // RFC 8210 section 5.11 has the layout.
    let head = [1, 10, 0, 0, 0, 0, 0, 59, 0, 0, 0, 20];
    let expected = [
        &head,
        &refused[..],
        &[0, 0, 0, 23],
        b"prefix length too large",
    ]
    .concat();
    assert_eq!((size, written), (Ok(59), expected));
    assert!(matches!(reader.next_unit(), Ok(Some(Unit::Ipv4Prefix(_)))));
}

/// A sequence begins at the reader's position, ends after its end of data, and has no other units.
#[test]
fn sequence_in_session() {
    let session = [CACHE_RESPONSE, IPV4, END, SERIAL_NOTIFY].concat();
    let mut reader = Reader::new(&session[..]);
    let first = reader
        .next_unit()
        .expect("it is read")
        .map(|unit| unit.kind());
    assert_eq!(first, Some(Kind::CacheResponse));
    let units = reader.sequence(2);
    let kinds: Vec<Kind> = units.map(|unit| unit.expect("it is read").kind()).collect();
    assert_eq!(kinds, [Kind::Ipv4Prefix, Kind::EndOfData]);
    let last = reader
        .next_unit()
        .expect("it is read")
        .map(|unit| unit.kind());
    assert_eq!(last, Some(Kind::SerialNotify));
    for other in [0, 1, 2, 3, 5, 8, 10, 12, 255] {
        // The fault doesn't depend on its length.
        let input = [1, other, 0, 0, 0xff, 0, 0, 0];
        let mut reader = Reader::new(&input[..]);
        let mut sequence = reader.sequence(1);
        let error = sequence.next_unit().unwrap_err();
        assert_eq!(error.fault(), Some(Fault::UnitType(other)));
        assert!(matches!(sequence.next_unit(), Ok(None)));
        let fault = Units::sequence(&input, 1).next();
        assert_eq!(fault, Some(Err(Fault::UnitType(other))));
    }
}

/// A sequence without an end of data is `Short`, even between two units.
#[test]
fn cut_sequence() {
    let session = [IPV4, KEY, END].concat();
    for cut in 0..=session.len() {
        let mut reader = Reader::new(&session[..cut]);
        let mut units: Vec<_> = reader.sequence(3).collect();
        let whole = [20, 54, 78].iter().filter(|end| **end <= cut).count();
        let count = whole + usize::from(cut < session.len());
        assert_eq!(units.len(), count);
        match units.pop() {
            Some(Err(error)) => {
                assert_eq!(error.fault(), Some(Fault::Short));
                assert_eq!(io::Error::from(error).kind(), io::ErrorKind::UnexpectedEof);
            }
            _ => assert_eq!(cut, session.len()),
        }
        assert_eq!(Units::sequence(&session[..cut], 3).count(), count);
    }
}

/// A limit stops before the next unit, and another sequence continues there.
#[test]
fn limit() {
    let session = [IPV4, KEY, END].concat();
    for limit in 0..=3 {
        let mut reader = Reader::new(&session[..]);
        let taken = reader.sequence(limit).filter_map(Result::ok).count();
        assert_eq!(taken as u64, limit);
        let left = reader.sequence(3 - limit).filter_map(Result::ok).count();
        assert_eq!(left as u64, 3 - limit);
        let taken = Units::sequence(&session, limit)
            .filter_map(Result::ok)
            .count();
        assert_eq!(taken as u64, limit);
    }
    let mut reader = Reader::new(&session[..]);
    let error = reader.sequence(2).find_map(Result::err).expect("it stops");
    assert_eq!(error.to_string(), "too many units, at byte 54");
    assert_eq!(refusal(error).report(), None);
    let fault = Units::sequence(&session, 2).find_map(Result::err);
    assert_eq!(fault, Some(Fault::TooMany));
}

/// A sequence continues after its reader failed.
#[test]
fn sequence_goes_on() {
    let session = [IPV4, END].concat();
    let mut reader = Reader::new(Slow::new(&session, 5, Some(io::ErrorKind::TimedOut)));
    let mut sequence = reader.sequence(2);
    let mut kinds = Vec::new();
    loop {
        match sequence.next_unit() {
            Ok(Some(unit)) => kinds.push(unit.kind()),
            Ok(None) => break,
            Err(error) => assert_eq!(error.fault(), None),
        }
    }
    assert_eq!(kinds, [Kind::Ipv4Prefix, Kind::EndOfData]);
}

/// As an iterator a sequence ends when its reader fails.
#[test]
fn sequence_fails() {
    let mut reader = Reader::new(Slow::new(IPV4, 20, Some(io::ErrorKind::TimedOut)));
    let mut sequence = reader.sequence(2);
    assert!(matches!(sequence.next(), Some(Err(Error::Io(_)))));
    assert!(sequence.next().is_none());
}

/// A writer that fails, and a unit that can't be written.
#[test]
fn writer_fails() {
    struct Broken;
    impl Write for Broken {
        fn write(&mut self, _: &[u8]) -> io::Result<usize> {
            Err(io::ErrorKind::BrokenPipe.into())
        }
        fn flush(&mut self) -> io::Result<()> {
            Err(io::ErrorKind::BrokenPipe.into())
        }
    }
    let mut writer = Writer::new(Broken);
    let error = writer.write(&rows()[0].1).unwrap_err();
    assert_eq!(io::Error::from(error).kind(), io::ErrorKind::BrokenPipe);
    assert!(matches!(writer.flush(), Err(Error::Io(_))));
    let unit: OwnedUnit = Unit::EndOfData(EndOfData {
        version: 3,
        session: 0,
        serial: 0,
        timing: None,
    });
    let mut writer = Writer::new(Vec::new());
    let error = writer.write(&unit).unwrap_err();
    assert_eq!(error.fault(), Some(Fault::UnitVersion(3)));
    assert_eq!(io::Error::from(error).kind(), io::ErrorKind::InvalidInput);
    assert!(writer.into_inner().is_empty());
    let mut bytes = vec![7];
    assert_eq!(unit.append(&mut bytes), Err(Fault::UnitVersion(3)));
    assert_eq!(bytes, [7]);
}

/// Each thread has its own reader and writer.
#[test]
fn in_threads() {
    let session = session();
    std::thread::scope(|scope| {
        for _ in 0..8 {
            scope.spawn(|| {
                for _ in 0..100 {
                    let mut reader = Reader::new(&session[..]);
                    let mut writer = Writer::new(Vec::new());
                    while let Some(unit) = reader.next_unit().expect("it is read") {
                        writer.write(&unit).expect("it has a form");
                    }
                    assert_eq!(writer.into_inner(), session);
                }
            });
        }
    });
}

/// Errors, readers and units may go to other threads.
#[test]
fn sent() {
    fn check<T: Send + Sync + 'static>() {}
    check::<Error>();
    check::<Reader<&'static [u8]>>();
    check::<Writer<Vec<u8>>>();
    check::<OwnedUnit>();
}
