//! A cache with a simulated clock, by a connection of a server, as an end of a connection, which
//! plays the scenes of the repository's tests.

#[path = "scenes.rs"]
mod scenes;

use self::scenes::{answer, bytes_of, each_line, hex, play};
use super::{Server, ServerOptions};
use crate::cache::Moment;
use crate::carrying::Connection;
use crate::socket::Socket;
use crate::waiting::{wait, Awaited};
use crate::{Data, UpdateError};
use std::boxed::Box;
use std::fmt::Write as _;
use std::format;
use std::io::{self, ErrorKind, Read, Write};
use std::net::{Ipv4Addr, Shutdown};
use std::os::unix::io::{AsFd, BorrowedFd};
use std::os::unix::net::UnixStream;
use std::path::PathBuf;
use std::string::String;
use std::sync::atomic::{AtomicUsize, Ordering};
use std::sync::Arc;
use std::time::Duration;
use std::vec::Vec;

/// A connection, and the router's end of it.
struct Joined {
    connection: Connection,
    router: UnixStream,
    /// How many more bytes the router reads.
    readable: Arc<AtomicUsize>,
}

/// The cache's end of a connection, and how many more bytes the router reads.
struct Taken(UnixStream, Arc<AtomicUsize>);

impl Read for Taken {
    fn read(&mut self, bytes: &mut [u8]) -> io::Result<usize> {
        self.0.read(bytes)
    }
}

impl Write for Taken {
    fn write(&mut self, bytes: &[u8]) -> io::Result<usize> {
        let most = bytes.len().min(self.1.load(Ordering::Relaxed));
        if most == 0 {
            return Err(ErrorKind::WouldBlock.into());
        }
        let count = self.0.write(&bytes[..most])?;
        self.1.fetch_sub(count, Ordering::Relaxed);
        Ok(count)
    }

    fn flush(&mut self) -> io::Result<()> {
        Ok(())
    }
}

impl Socket for Taken {
    fn socket(&self) -> BorrowedFd<'_> {
        self.0.as_fd()
    }

    fn finish(&mut self) -> io::Result<()> {
        self.0.shutdown(Shutdown::Write)
    }
}

/// Returns the file of the cache in the scene, in memory where the system has a folder for that:
/// each data are synced.
fn own_file() -> PathBuf {
    let memory = PathBuf::from("/dev/shm");
    let folder = Some(memory).filter(|folder| folder.is_dir());
    let name = format!("rtr-scene-{}", std::process::id());
    folder.unwrap_or_else(std::env::temp_dir).join(name)
}

/// Returns a server that saves to this file, and serves its data.
fn saving(options: &ServerOptions) -> Server {
    let server = Server::new(options.clone());
    server
        .save_to(own_file())
        .expect("a complete file, or none");
    server
}

/// Gives a server these data. It refuses data of a session that it left: if a scene returns to
/// such a session, the server first forgets which sessions it left.
fn update(server: &Server, data: Data) -> Result<bool, UpdateError> {
    match server.update(data.clone()) {
        Err(UpdateError::SessionLeft) => {
            std::fs::remove_file(own_file()).expect("a file");
            server.shared.cache.begin_anew(&own_file());
            server.update(data)
        }
        updated => updated,
    }
}

impl Drop for CacheEnd {
    fn drop(&mut self) {
        let _ = std::fs::remove_file(own_file());
    }
}

/// A cache in a scene.
#[derive(Default)]
struct CacheEnd {
    options: ServerOptions,
    server: Option<Server>,
    now: u64,
    joined: Option<Joined>,
    /// What it did since the last answer.
    steps: String,
}

impl Joined {
    /// Carries out a step of the router.
    fn take_step(&mut self, step: &str, words: &[&str]) {
        let set_readable = |readable| self.readable.store(readable, Ordering::Relaxed);
        match (step, words) {
            ("router>", bytes) => self.router.write_all(&bytes_of(bytes)).unwrap(),
            (_, ["takes", count]) => set_readable(count.parse().unwrap()),
            (_, ["closes"]) => self.router.shutdown(Shutdown::Write).unwrap(),
            (_, ["breaks"]) => {
                set_readable(usize::MAX);
                self.router.shutdown(Shutdown::Both).unwrap();
            }
            (_, words) => panic!("{:?}", words),
        }
    }

    /// Reports whether the connection has nothing to do now; `is_ready` is whether it has bytes
    /// to read.
    fn rests(&self, moment: &Moment, is_ready: bool) -> bool {
        let connection = &self.connection;
        let is_held = connection.is_sending() && self.readable.load(Ordering::Relaxed) == 0;
        let waits = is_held || !connection.is_sending() && !is_ready;
        connection.is_over() || waits && connection.wakes(moment) > moment.now
    }

    /// Reports whether bytes, or the end of the stream, can be read.
    fn is_ready(&self) -> bool {
        let mut awaited = [Awaited::to_read(&self.connection.socket())];
        wait(&mut awaited, 0);
        !self.connection.is_sending() && awaited[0].is_ready()
    }

    /// Reports whether all bytes before the end were sent.
    fn has_ended(&self) -> bool {
        !self.connection.is_served() && !self.connection.is_sending()
    }

    /// Returns the bytes that the router has received.
    fn came(&mut self) -> Vec<u8> {
        let mut came = Vec::new();
        self.router.set_nonblocking(true).unwrap();
        if let Err(error) = self.router.read_to_end(&mut came) {
            assert_eq!(error.kind(), ErrorKind::WouldBlock);
        }
        self.router.set_nonblocking(false).unwrap();
        came
    }
}

impl CacheEnd {
    fn server(&mut self) -> &Server {
        let options = &self.options;
        self.server.get_or_insert_with(|| saving(options))
    }

    fn moment(&mut self) -> Moment {
        let now = self.now;
        self.server().shared.cache.at(now)
    }

    /// Serves the connection at this time until it waits; at least once, for new data.
    fn settle(&mut self) {
        let (mut moment, now) = (self.moment(), self.now);
        if let Some(joined) = &mut self.joined {
            loop {
                let is_ready = joined.is_ready();
                let connection = &mut joined.connection;
                connection.go_on(&mut moment, || now, &|_, _| {}, is_ready);
                if joined.rests(&moment, joined.is_ready()) {
                    break;
                }
            }
        }
        self.does();
    }

    /// Records what the cache did now.
    fn does(&mut self) {
        if let Some(joined) = &mut self.joined {
            let came = joined.came();
            if !came.is_empty() {
                writeln!(self.steps, "{} cache> {}", self.now, hex(&came)).unwrap();
            }
            if joined.has_ended() {
                writeln!(self.steps, "{} closes", self.now).unwrap();
                self.joined = None;
            }
        }
    }

    /// Returns when the connection acts by itself, if there is one.
    fn wakes(&mut self) -> Option<u64> {
        let moment = self.moment();
        let joined = self.joined.as_ref().filter(|joined| !joined.has_ended())?;
        Some(joined.connection.wakes(&moment))
    }

    /// Advances the clock to this time.
    fn pass(&mut self, time: u64) {
        while let Some(wakes) = self.wakes().filter(|wakes| *wakes <= time) {
            self.now = self.now.max(wakes);
            self.settle();
        }
        self.now = self.now.max(time);
    }

    fn connects(&mut self, beyond: bool) {
        // In a socket pair each byte can be read as soon as it was written.
        let (router, stream) = UnixStream::pair().unwrap();
        stream.set_nonblocking(true).unwrap();
        let readable = Arc::new(AtomicUsize::new(usize::MAX));
        let socket = Box::new(Taken(stream, Arc::clone(&readable)));
        let (mut moment, now) = (self.moment(), self.now);
        let from = (Ipv4Addr::LOCALHOST, 0).into();
        let mut connection = Connection::new(socket, from, &moment);
        if beyond {
            connection.refuse(&moment);
            connection.go_on(&mut moment, || now, &|_, _| {}, false);
        }
        self.joined = Some(Joined {
            connection,
            router,
            readable,
        });
        self.settle();
    }

    /// Carries out a step of the router or the data.
    fn take_step(&mut self, step: &str, words: &[&str]) {
        match (step, words) {
            ("router", ["connects"]) => self.connects(false),
            ("router", ["connects", ..]) => self.connects(true),
            ("router" | "router>", words) => {
                if let Some(joined) = self.joined.as_mut().filter(|joined| !joined.has_ended()) {
                    joined.take_step(step, words);
                }
                self.settle();
            }
            ("data", ["{", bytes @ .., "}"]) => {
                let data = Data::parse(&bytes_of(bytes)).expect("data");
                update(self.server(), data).expect("later data");
                self.settle();
            }
            // Without data there is no file.
            ("saves", [path]) => drop(std::fs::copy(own_file(), path)),
            ("restores", [path]) => {
                self.server = None;
                std::fs::copy(path, own_file()).expect("a file");
                self.server = Some(saving(&self.options));
            }
            (_, words) => self.forgets(words[0].parse().unwrap()),
        }
    }

    /// Drops the deltas from a serial number and from earlier ones.
    fn forgets(&mut self, serial: u32) {
        self.server().shared.cache.forget(serial);
    }

    fn set(&mut self, name: &str, value: u64) {
        let span = Duration::from_millis(value);
        match name {
            "usual" | "date" => {}
            "first-limit" => self.options.first_query = span,
            "idle-limit" => self.options.idle = span,
            "pause" => self.options.notify = span,
            "refuses" => self.options.refuse = true,
            "keep-bytes" => self.options.keep_bytes = value.try_into().unwrap(),
            _ => panic!("no setting {}", name),
        }
    }

    /// Carries out a line, and returns the answer, if it has a time.
    fn line(&mut self, words: &[&str]) -> Option<String> {
        match words {
            ["scene", ..] => *self = CacheEnd::default(),
            ["cache", name, value @ ..] => {
                let value = value.first().map_or(0, |value| value.parse().unwrap());
                self.set(name, value);
            }
            ["at", time] => self.pass(time.parse().unwrap()),
            [time, step, words @ ..] => {
                self.pass(time.parse().unwrap());
                self.take_step(step, words);
            }
            _ => panic!("no step: {words:?}"),
        }
        if matches!(words[0], "scene" | "cache") {
            return None;
        }
        let wakes = self.wakes().unwrap_or(u64::MAX);
        Some(answer(&mut self.steps, wakes))
    }
}

#[test]
fn transcripts_of_a_cache() {
    play(&["cache"], "server::cache_end::joined");
}

/// An end, if the environment names a file for its answers.
#[test]
fn joined() {
    let mut end = CacheEnd::default();
    each_line(|words| end.line(words));
}
