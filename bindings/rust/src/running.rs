//! Runs a router with a socket, in one thread.

use crate::asking::Asked;
use crate::client::Client;
use crate::client_error::ClientError;
use crate::group::News;
use crate::log::LogLevel;
use crate::options::ClientOptions;
use crate::owned_data::Data;
use crate::router::{Event, Router, Step};
use crate::socket::Socket;
use crate::timed::{after, awaited, has_to_wait, milliseconds_since, send_last, write};
use std::boxed::Box;
use std::collections::hash_map::RandomState;
use std::hash::{BuildHasher, Hasher};
use std::io::{self, ErrorKind};
use std::net::{SocketAddr, TcpStream, ToSocketAddrs};
use std::ops::ControlFlow;
use std::time::{Duration, Instant};
use std::vec::Vec;

/// The least time for a connection attempt, even if none is left: a socket refuses a time of zero.
const LEAST: Duration = Duration::from_millis(1);

/// A router, and the start of its clock.
pub(crate) struct Timed {
    router: Router,
    begun: Instant,
}

impl Timed {
    fn new(options: &ClientOptions) -> Timed {
        // A hasher is the only source of random numbers in the standard library.
        let random = RandomState::new().build_hasher().finish().to_be_bytes();
        Timed {
            router: Router::new(options, u16::from_be_bytes([random[0], random[1]])),
            begun: Instant::now(),
        }
    }
}

/// A router and its connection.
pub(crate) struct Follower<'c> {
    client: &'c Client,
    begun: Instant,
    router: Router,
    asked: Asked,
    socket: Option<Box<dyn Socket>>,
    /// Whether the socket has to be flushed.
    holds: bool,
}

impl<'c> Follower<'c> {
    /// Returns a follower that continues with the router of an earlier run, if there is one.
    pub(crate) fn new(client: &'c Client, earlier: Option<Timed>) -> Self {
        let Timed { router, begun } = earlier.unwrap_or_else(|| Timed::new(&client.options));
        Follower {
            client,
            begun,
            router,
            asked: client.askings.add(),
            socket: None,
            holds: false,
        }
    }

    /// Runs until there are data, or an error.
    pub(crate) fn fetch(mut self) -> Result<Data, ClientError> {
        match self.next() {
            Some(Step::Failed(error)) => Err(error),
            _ => self.router.into_data().ok_or(ClientError::Stopped),
        }
    }

    /// Runs until the client is stopped, or the caller breaks off.
    pub(crate) fn run(mut self, mut on: impl FnMut(Event<'_>) -> ControlFlow<()>) -> Option<Data> {
        while let Some(step) = self.next() {
            let event = match self.router.event(&step) {
                Some(event) => event,
                None => continue,
            };
            if on(event).is_break() {
                break;
            }
        }
        let has_data = self.router.has_data(self.now());
        self.router.into_data().filter(|_| has_data)
    }

    /// Runs until the client is stopped or the caller breaks off, and calls it with each step, what
    /// it means to a group, and the data after it. Returns the router, without data, to continue
    /// with.
    pub(crate) fn steps(
        mut self,
        mut on: impl FnMut((Step, News), Option<&Data>) -> ControlFlow<()>,
    ) -> Timed {
        while let Some(step) = self.next() {
            let news = self.router.take_news();
            if on((step, news), self.router.data()).is_break() {
                break;
            }
        }
        self.router.again();
        Timed {
            router: self.router,
            begun: self.begun,
        }
    }

    /// Runs until the next step for the caller, or until the client is stopped.
    fn next(&mut self) -> Option<Step> {
        while !self.client.stop.is_set() {
            if self.asked.take() {
                self.router.ask_now();
            }
            match self.router.next(self.now()) {
                Step::Wait => self.wait(),
                Step::Connect => self.connect(),
                Step::Close => self.close(),
                step => {
                    self.tell_log(&step);
                    return Some(step);
                }
            }
        }
        None
    }

    /// Logs a step.
    fn tell_log(&self, step: &Step) {
        if let (Some(log), Some(event)) = (&self.client.log, self.router.event(step)) {
            event.log(log);
        }
    }

    /// Returns the router's time.
    fn now(&self) -> u64 {
        milliseconds_since(self.begun)
    }

    /// Returns the duration until the router's next tick.
    fn left(&self) -> Duration {
        Duration::from_millis(self.router.wakes().saturating_sub(self.now()))
    }

    /// Opens a connection, unless the router's next tick comes before.
    fn connect(&mut self) {
        match (self.client.dial)(self.left().max(LEAST)) {
            Ok(socket) => {
                self.socket = Some(socket);
                self.holds = false;
                if let Some(log) = &self.client.log {
                    log(LogLevel::Debug, "connected", &[]);
                }
                self.router.connected(self.now());
            }
            Err(_) if self.left().is_zero() => {}
            Err(error) => self.router.lost(self.now(), error),
        }
    }

    /// Carries bytes; waits if it can't, or until the router's next tick without a connection.
    fn wait(&mut self) {
        match self.carry() {
            Ok(()) => {}
            Err(error) if has_to_wait(&error) => self.rest(),
            Err(error) => self.router.lost(self.now(), error),
        }
    }

    /// Sends unsent bytes, then flushes the socket, or else reads. Without a connection it would
    /// block.
    fn carry(&mut self) -> io::Result<()> {
        let socket = self.socket.as_mut().ok_or(ErrorKind::WouldBlock)?;
        match self.router.output() {
            [] if self.holds => {
                socket.flush()?;
                self.holds = false;
            }
            [] => {
                let count = socket.read(self.router.room())?;
                self.router.filled(count);
            }
            output => {
                let count = write(socket, output)?;
                self.holds = true;
                self.router.sent(count);
            }
        }
        Ok(())
    }

    /// Waits until the socket is ready, the caller asks for data, or the router's next tick.
    fn rest(&self) {
        let sends = self.holds || !self.router.output().is_empty();
        let socket = self.socket.as_ref();
        let awaited = socket.map(|socket| awaited(socket, sends));
        self.asked.wait(&self.client.stop, awaited, self.left());
    }

    /// Sends the report that is owed, if one is, and closes the connection.
    fn close(&mut self) {
        let (socket, report) = (self.socket.take(), self.router.output());
        if let Some(socket) = socket.filter(|_| !report.is_empty()) {
            let until = after(Instant::now(), self.client.options.report);
            send_last(socket, report, until, &self.client.stop);
        }
    }
}

/// Connects over TCP to the first of the addresses that accepts a connection within this time,
/// which they share.
pub(crate) fn dial(address: &str, time: Duration) -> io::Result<TcpStream> {
    let until = after(Instant::now(), time);
    let addresses: Vec<SocketAddr> = address.to_socket_addrs()?.collect();
    let mut last = ErrorKind::NotFound.into();
    for (count, address) in (1..=addresses.len()).rev().zip(&addresses) {
        let left = until.saturating_duration_since(Instant::now());
        let share = ClientOptions::share_of(left, count).max(LEAST);
        match TcpStream::connect_timeout(address, share) {
            Ok(stream) => {
                stream.set_nodelay(true)?;
                stream.set_nonblocking(true)?;
                return Ok(stream);
            }
            Err(error) => last = error,
        }
    }
    Err(last)
}

#[cfg(test)]
mod tests {
    use super::dial;
    use std::net::TcpListener;
    use std::string::ToString;
    use std::time::Duration;

    /// A client's connection sends each query without Nagle's delay.
    #[test]
    fn a_connection_without_delay() {
        let listener = TcpListener::bind("127.0.0.1:0").unwrap();
        let address = listener.local_addr().unwrap().to_string();
        let stream = dial(&address, Duration::from_secs(30)).unwrap();
        assert!(stream.nodelay().unwrap());
    }
}
