//! Peers on the loopback interface, and the data of caches in the tests.
#![allow(dead_code)]

use rtr_wire::*;
use std::io::{BufReader, Read, Write};
use std::net::{Shutdown, SocketAddr, TcpStream};
use std::path::{Path, PathBuf};
use std::sync::{Mutex, MutexGuard, PoisonError};
use std::time::{Duration, Instant};

pub const SESSION: u16 = 4660;
/// How long a test waits for something that has to come.
pub const PATIENCE: Duration = Duration::from_secs(30);
/// How long a test waits to see that nothing comes.
pub const HOUR: Duration = Duration::from_secs(3600);
/// How late something may come that ends by a limit of well under a second: others use the machine
/// too.
pub const LATE: Duration = Duration::from_secs(10);

pub fn milliseconds(count: u64) -> Duration {
    Duration::from_millis(count)
}

/// Runs the tests one after the other, so that each can count its threads.
pub fn alone() -> MutexGuard<'static, ()> {
    static ONE: Mutex<()> = Mutex::new(());
    ONE.lock().unwrap_or_else(PoisonError::into_inner)
}

/// An IPv4 prefix of version 2 (RFC 8210 section 5.6).
pub fn prefix(flags: u8, number: u16) -> Vec<u8> {
    let [high, low] = number.to_be_bytes();
    vec![
        2, 4, 0, 0, 0, 0, 0, 20, flags, 24, 24, 0, 10, high, low, 0, 0, 1, 0, 15,
    ]
}

fn end(session: u16, serial: u32) -> Vec<u8> {
    let mut bytes = vec![2, 7];
    bytes.extend(session.to_be_bytes());
    bytes.extend([0, 0, 0, 24]);
    bytes.extend(serial.to_be_bytes());
    bytes.extend([0, 0, 0x0e, 0x10, 0, 0, 2, 0x58, 0, 0, 0x1c, 0x20]);
    bytes
}

/// The data of a serial number: three of five prefixes, a router key and an ASPA.
pub fn data_of(session: u16, serial: u32, count: u16) -> Data {
    let mut bytes = Vec::new();
    for number in 0..count {
        if (u32::from(number) + serial) % 5 > 1 {
            bytes.extend(prefix(1, number));
        }
    }
    bytes.extend([2, 9, 1, 0, 0, 0, 0, 34]);
    bytes.extend([7; 20]);
    bytes.extend([0, 1, 0, 15, 0xca, 0xfe]);
    bytes.extend([2, 11, 1, 0, 0, 0, 0, 16, 0, 0, 0xfd, 0xe8]);
    bytes.extend(serial.to_be_bytes());
    bytes.extend(end(session, serial));
    Data::parse(&bytes).expect("it is canonical")
}

pub fn data(serial: u32) -> Data {
    data_of(SESSION, serial, 20)
}

/// A connection as the tests have one. It reads ahead: a call of the system for each unit would
/// take so long where others use the machine too that a cache ends it.
pub struct Peer {
    pub stream: BufReader<TcpStream>,
}

pub fn bytes_of(unit: &UnitRef) -> Vec<u8> {
    let mut bytes = Vec::new();
    unit.append(&mut bytes).expect("it has a form");
    bytes
}

pub fn reset_query(version: u8) -> Vec<u8> {
    vec![version, 2, 0, 0, 0, 0, 0, 8]
}

/// The whole answer to a reset query of a version.
pub fn answer(data: &Data, version: u8) -> Vec<u8> {
    let data = data.for_version(version).unwrap();
    [&response(version, data.end().session), data.as_bytes()].concat()
}

/// A cache response.
pub fn response(version: u8, session: u16) -> Vec<u8> {
    bytes_of(&Unit::CacheResponse(CacheResponse { version, session }))
}

pub fn serial_query(version: u8, session: u16, serial: u32) -> Vec<u8> {
    bytes_of(&Unit::SerialQuery(SerialQuery {
        version,
        session,
        serial,
    }))
}

impl Peer {
    pub fn connect(address: SocketAddr) -> Peer {
        Peer::of(TcpStream::connect(address).expect("somebody listens"))
    }

    pub fn of(stream: TcpStream) -> Peer {
        stream.set_nodelay(true).unwrap();
        stream.set_read_timeout(Some(PATIENCE)).unwrap();
        stream.set_write_timeout(Some(PATIENCE)).unwrap();
        let stream = BufReader::new(stream);
        Peer { stream }
    }

    pub fn send(&mut self, bytes: &[u8]) {
        let written = self.stream.get_mut().write_all(bytes);
        written.expect("the peer is there");
    }

    /// Sends as much as the peer takes.
    pub fn try_send(&mut self, bytes: &[u8]) {
        let _ = self.stream.get_mut().write_all(bytes);
    }

    /// Waits until something has come, and doesn't read it: dropping the connection then resets it.
    pub fn is_sent_to(&self) {
        if self.stream.buffer().is_empty() {
            let _ = self.stream.get_ref().peek(&mut [0]);
        }
    }

    /// Reports whether something has come, or the peer has closed, without waiting.
    pub fn has_come(&self) -> bool {
        let stream = self.stream.get_ref();
        stream.set_nonblocking(true).unwrap();
        let come = stream.peek(&mut [0]).is_ok();
        stream.set_nonblocking(false).unwrap();
        come
    }

    pub fn finish(&self) {
        let _ = self.stream.get_ref().shutdown(Shutdown::Write);
    }

    /// The next unit, or none where the peer has closed.
    pub fn unit(&mut self) -> Option<OwnedUnit> {
        let mut reader = Reader::new(&mut self.stream);
        let unit = reader.next_unit();
        unit.expect("a unit comes").map(Unit::into_owned)
    }

    /// The bytes up to the end of data, which have to come.
    pub fn sequence(&mut self) -> Vec<u8> {
        let mut reader = Reader::new(&mut self.stream);
        let mut bytes = Vec::new();
        loop {
            let unit = reader.next_unit().expect("a unit comes");
            let ended = matches!(unit.expect("it isn't closed"), Unit::EndOfData(_));
            bytes.extend(reader.bytes());
            if ended {
                return bytes;
            }
        }
    }

    /// Reads this many bytes, whatever they are; fast, also for many bytes.
    pub fn bytes(&mut self, count: usize) -> Vec<u8> {
        let mut bytes = vec![0; count];
        self.stream.read_exact(&mut bytes).expect("they come");
        bytes
    }

    /// A cache response, and the sequence after it.
    pub fn response(&mut self) -> Vec<u8> {
        match self.unit() {
            Some(Unit::CacheResponse(response)) => assert_eq!(response.session, SESSION),
            other => panic!("{other:?}"),
        }
        self.sequence()
    }

    /// The code and the version of a report that comes, after which the peer closes.
    pub fn report(&mut self) -> Option<(ErrorCode, u8)> {
        match self.unit()? {
            Unit::ErrorReport(report) => {
                assert!(self.is_closed());
                Some((report.code, report.version))
            }
            other => panic!("{other:?}"),
        }
    }

    /// Reports whether the peer closes, with nothing sent before.
    pub fn is_closed(&mut self) -> bool {
        match self.stream.read(&mut [0]) {
            Ok(count) => count == 0,
            Err(error) => error.kind() == std::io::ErrorKind::ConnectionReset,
        }
    }
}

/// A moment of a thread.
#[derive(Clone, Copy, Debug, PartialEq)]
pub struct Stamp {
    time: Instant,
    /// How long the thread has run until then, or been ready to.
    awake: Duration,
}

impl Stamp {
    /// This moment of the present thread.
    pub fn now() -> Stamp {
        Stamp::read(Path::new("/proc/thread-self"))
    }

    /// This moment of the thread of this name, which must have started.
    pub fn of(name: &str) -> Stamp {
        Stamp::read(&folders(name).next().expect("a thread of this name"))
    }

    fn read(folder: &Path) -> Stamp {
        let time = Instant::now();
        // Nanoseconds on a processor, nanoseconds of waiting for one, and a count.
        let times = std::fs::read_to_string(folder.join("schedstat")).unwrap();
        let awake = times.split_whitespace().take(2);
        let nanoseconds = awake.map(|time| time.parse::<u64>().unwrap()).sum();
        Stamp {
            time,
            awake: Duration::from_nanos(nanoseconds),
        }
    }

    /// The time from this moment to a later one.
    pub fn until(self, later: Stamp) -> Duration {
        later.time - self.time
    }

    /// How much of that time the thread slept. One that is ready to run doesn't, however long a
    /// busy machine lets it wait for a processor.
    pub fn slept_until(self, later: Stamp) -> Duration {
        let awake = later.awake.saturating_sub(self.awake);
        self.until(later).saturating_sub(awake)
    }
}

/// Returns the folders of the threads of this name, which have begun to run.
fn folders(name: &str) -> impl Iterator<Item = PathBuf> + '_ {
    let tasks = std::fs::read_dir("/proc/self/task").unwrap();
    let folders = tasks.map(|task| task.unwrap().path());
    folders.filter(move |folder| {
        let found = std::fs::read_to_string(folder.join("comm"));
        found.map_or(false, |found| found.trim_end() == name)
    })
}

/// Waits until a condition holds; returns whether it does before patience ends.
pub fn holds(mut what: impl FnMut() -> bool) -> bool {
    let began = Instant::now();
    while began.elapsed() < PATIENCE {
        if what() {
            return true;
        }
        std::thread::sleep(milliseconds(5));
    }
    false
}

/// Returns how many threads of this process have a name that begins with this.
pub fn threads(name: &str) -> usize {
    let tasks = std::fs::read_dir("/proc/self/task").into_iter().flatten();
    let names =
        tasks.filter_map(|task| std::fs::read_to_string(task.ok()?.path().join("comm")).ok());
    names.filter(|found| found.starts_with(name)).count()
}

/// Returns how often threads of this name began to wait.
pub fn waits(name: &str) -> u64 {
    let tasks = std::fs::read_dir("/proc/self/task").unwrap();
    let statuses =
        tasks.filter_map(|task| std::fs::read_to_string(task.ok()?.path().join("status")).ok());
    let named = statuses.filter(|status| {
        status
            .lines()
            .next()
            .map_or(false, |line| line.contains(name))
    });
    let count = |status: String| -> Option<u64> {
        let line = status.lines().find(|line| line.starts_with("voluntary"))?;
        line.split_whitespace().last()?.parse().ok()
    };
    named.filter_map(count).sum()
}

/// Reports whether threads of these names exist and stay asleep: within two seconds each wakes at
/// most twice, and sleeps for half of them, which one that polls without a wait doesn't. On a busy
/// machine it takes a while until everything has been sent.
pub fn stay_asleep(names: &[&str]) -> bool {
    let counts = || names.iter().map(|name| waits(name)).collect::<Vec<u64>>();
    let awake = || {
        let awake = |name: &&str| folders(name).map(|folder| Stamp::read(&folder).awake).sum();
        names.iter().map(awake).collect::<Vec<Duration>>()
    };
    let began = Instant::now();
    while began.elapsed() < PATIENCE {
        let (before, awake_before) = (counts(), awake());
        std::thread::sleep(Duration::from_secs(2));
        let mut woken = counts().into_iter().zip(before);
        let mut ran = awake().into_iter().zip(awake_before);
        if woken.all(|(now, before)| now - before <= 2)
            && ran.all(|(now, before)| now.saturating_sub(before) < Duration::from_secs(1))
        {
            return names.iter().all(|name| threads(name) > 0);
        }
    }
    false
}

/// Data of 20 MB, of which no buffer of a system holds an answer.
pub fn unbuffered() -> Data {
    let mut bytes = Vec::new();
    for number in 0..1_000_000_u32 {
        bytes.extend([2, 4, 0, 0, 0, 0, 0, 20, 1, 32, 32, 0]);
        bytes.extend(number.to_be_bytes());
        bytes.extend([0, 1, 0, 15]);
    }
    bytes.extend(Data::new(2, SESSION, 1, None).unwrap().into_bytes());
    Data::parse(&bytes).unwrap()
}
