//! A cache.

use crate::cache::{locked, Cache, Moment};
use crate::carrying::{Connection, Ended};
use crate::door::{Door, Entry};
use crate::log::{log_retried, Log, LogFields, LogLevel};
use crate::options::ServerOptions;
use crate::owned_data::Data;
use crate::server_error::{SaveError, ServerError, UpdateError};
use crate::socket::Socket;
use crate::timed::{has_to_wait, milliseconds_since, Stop};
use crate::units::EndOfData;
use crate::waiting::{block_broken_pipes, keep_waiting, limit_unsent, waker};
use crate::waiting::{Poller, Waker, Woken};
use std::boxed::Box;
use std::collections::BTreeMap;
use std::io;
use std::mem::take;
use std::net::{SocketAddr, TcpListener, TcpStream, ToSocketAddrs};
use std::path::Path;
use std::string::ToString;
use std::sync::atomic::{AtomicUsize, Ordering};
use std::sync::{Arc, Mutex};
use std::thread::{self, JoinHandle};
use std::time::Instant;
use std::vec::Vec;

#[cfg(test)]
#[path = "cache_end.rs"]
mod cache_end;

/// The size of a client's send buffer in the system, in bytes: with a larger one a slow client costs
/// more memory. It is the same in C, Go and Python.
const UNSENT: i32 = 1 << 17;
/// How many clients are accepted in a row, before the others are served again: so that many that
/// connect at once stop none.
const MOST_TAKEN: usize = 64;
/// How long accepting pauses, in milliseconds, after the system had no descriptor left: a listener
/// that fails at once would take the processor. It is the same in C.
const PAUSE: u64 = 100;

/// The state that a server's thread shares with its callers.
struct Shared {
    cache: Cache,
    ended: Box<Ended>,
    log: Option<Arc<Log>>,
    stop: Stop,
    /// Listeners and connections that the thread hasn't taken over yet.
    listeners: Mutex<Vec<Listener>>,
    connections: Mutex<Vec<(Box<dyn Socket>, SocketAddr)>>,
    /// How many clients are served.
    clients: AtomicUsize,
    /// Wakes the thread, if it runs.
    waker: Mutex<Option<Waker>>,
}

/// A cache (RFC 8210) over TCP or other sockets, for clients of versions 0 to 2, in one thread.
///
/// The proved machine of `rtr_cache` decides the answer to each client: all data, the changes since
/// a serial number, as [`Data::delta_to`] makes them, a cache reset if these aren't known, or a
/// report; and when to notify it of new data. When new data have another session, clients that have
/// data are disconnected at once.
///
/// No client waits until another has received or sent something. All wait while data are encoded
/// for a version, or a delta is computed, for the first client that asks. Clients share the encoded
/// bytes. The connection of a client that is still receiving data when three newer ones have come
/// is closed, and so is that of a slow one, by the limits of [`ServerOptions`].
///
/// Plain TCP neither encrypts nor authenticates (RFC 8210 section 9):
/// [`listen_with`](Server::listen_with) takes a transport that does.
///
/// ```
/// use rtr_wire::{Data, Server, ServerOptions};
///
/// let server = Server::new(ServerOptions::default());
/// let address = server.listen("127.0.0.1:0")?;
/// assert_eq!(server.update(Data::new(1, 4660, 1, None)?), Ok(true));
/// println!("listening on {address}");
/// server.stop();
/// # Ok::<(), Box<dyn std::error::Error>>(())
/// ```
pub struct Server {
    shared: Arc<Shared>,
    thread: Mutex<Option<JoinHandle<()>>>,
}

/// A listener and its transport.
struct Listener {
    socket: TcpListener,
    ready: Box<Ready>,
}

/// Makes the connection to serve of an accepted TCP connection.
type Ready = dyn Fn(TcpStream) -> io::Result<Box<dyn Socket>> + Send;

impl Server {
    /// Creates a server without data, which doesn't listen yet, and doesn't save
    /// ([`Server::save_to`]).
    #[must_use]
    pub fn new(options: ServerOptions) -> Self {
        Server::telling(options, |_, _| {})
    }

    /// Creates a server as [`Server::new`] does, with a callback that gets the reason when a
    /// client's connection ends. The server serves nobody until it returns.
    pub fn telling(
        options: ServerOptions,
        ended: impl Fn(SocketAddr, &ServerError) + Send + Sync + 'static,
    ) -> Self {
        Server::of(options, Box::new(ended), None)
    }

    /// Creates a server that logs where it listens, each connection and why it ended, and new data:
    /// a message, and fields by name. It serves nobody until the log returns.
    pub fn logging(
        options: ServerOptions,
        log: impl Fn(LogLevel, &str, &LogFields<'_>) + Send + Sync + 'static,
    ) -> Self {
        let log: Arc<Log> = Arc::new(log);
        let ended_log = Arc::clone(&log);
        let ended = move |from: SocketAddr, error: &ServerError| {
            ended_log(
                LogLevel::Info,
                "ended",
                &[("client", &from), ("error", error)],
            );
        };
        Server::of(options, Box::new(ended), Some(log))
    }

    fn of(options: ServerOptions, ended: Box<Ended>, log: Option<Arc<Log>>) -> Self {
        let shared = Arc::new(Shared {
            cache: Cache::new(options),
            ended,
            log,
            stop: Stop::default(),
            listeners: Mutex::default(),
            connections: Mutex::default(),
            clients: AtomicUsize::new(0),
            waker: Mutex::default(),
        });
        let retrying = Arc::downgrade(&shared);
        shared.cache.on_retry(move |saved| {
            if let Some(shared) = retrying.upgrade() {
                shared.retried(saved);
            }
        });
        Server {
            shared,
            thread: Mutex::default(),
        }
    }

    /// Serves these data from now on, with the session and serial number of their end of data.
    /// Returns whether they differ from the present data.
    ///
    /// A server that saves does so first, and blocks on the file system. If that fails, the present
    /// data are still served, and a thread retries after 1, 2, 4 .. seconds, up to a minute, until
    /// it succeeds, or other data come; [`Server::logging`] logs each retry.
    ///
    /// # Errors
    ///
    /// `NewTimings`; `SerialNotAfter`, also for the same payloads with an earlier serial number;
    /// `Times` if RFC 8210 section 6 doesn't allow their times; `SessionLeft`, `OtherSession`;
    /// `HigherVersion`; or `NotSaved`.
    pub fn update(&self, data: Data) -> Result<bool, UpdateError> {
        let update_log = self.shared.log.as_ref().map(|log| (log, data.clone()));
        let is_new = self.shared.cache.update(data)?;
        if is_new {
            if let Some((log, data)) = update_log {
                data.log_served(&**log);
            }
            self.shared.wake();
        }
        Ok(is_new)
    }

    /// Saves data to this file from now on, before they are served: writes and syncs one beside it,
    /// `.new`, renames that, and syncs the folder. Serves the data that the file has from an
    /// earlier run, with the deltas to them, and returns these data, in version 2 unless another
    /// program saved them in a lower one; none if there is no file. It syncs the folder first,
    /// since that run may have ended before it did. Call it once, before the first data. No other
    /// cache may use the file.
    ///
    /// If the file was lost or is refused, the next data have to be of a session that the cache
    /// never used; so have the data of each start without this call.
    ///
    /// # Errors
    ///
    /// Those of reading and syncing; `InvalidData` for a file that was changed or damaged, or whose
    /// data [`Server::update`] would refuse; `AlreadyExists` if the server has data, or a file.
    /// Then nothing changes.
    pub fn save_to(&self, path: impl AsRef<Path>) -> io::Result<Option<Data>> {
        let data = self.shared.cache.save_to(path)?;
        self.shared.wake();
        Ok(data)
    }

    /// Lets the next data of a server that doesn't save be of another session (RFC 8210 section
    /// 5.1), which it never used, at no earlier start either. The present data are served until
    /// then. A server that saves knows the sessions that it left, and ignores this call.
    pub fn change_session(&self) {
        self.shared.cache.change_session();
    }

    /// Returns the end of the data that are served, with session and serial number.
    pub fn end(&self) -> Option<EndOfData> {
        self.shared.cache.end()
    }

    /// Listens at one more address, and returns it: for port 0 the system chooses a free port.
    ///
    /// # Errors
    ///
    /// Those of binding to the address, and of starting a thread.
    pub fn listen(&self, address: impl ToSocketAddrs) -> io::Result<SocketAddr> {
        self.listen_with(address, Ok)
    }

    /// Listens as [`Server::listen`] does, with a function that wraps each connection in a
    /// transport, such as TLS. It must not block: the handshake is part of the first reads and
    /// writes, and its time limit is [`ServerOptions::first_query`].
    ///
    /// # Errors
    ///
    /// Those of binding to the address, and of starting a thread.
    pub fn listen_with<S: Socket + 'static>(
        &self,
        address: impl ToSocketAddrs,
        ready: impl Fn(TcpStream) -> io::Result<S> + Send + 'static,
    ) -> io::Result<SocketAddr> {
        let socket = TcpListener::bind(address)?;
        keep_waiting(&socket);
        socket.set_nonblocking(true)?;
        let address = socket.local_addr()?;
        self.start()?;
        self.shared
            .tell(LogLevel::Info, "listening", ("address", address));
        locked(&self.shared.listeners).push(Listener {
            socket,
            ready: Box::new(move |stream| Ok(Box::new(ready(stream)?))),
        });
        self.shared.wake();
        Ok(address)
    }

    /// Serves a client over a connection that came from this address.
    ///
    /// # Errors
    ///
    /// Those of starting a thread.
    pub fn serve(&self, socket: impl Socket + 'static, from: SocketAddr) -> io::Result<()> {
        self.start()?;
        locked(&self.shared.connections).push((Box::new(socket), from));
        self.shared.wake();
        Ok(())
    }

    /// Starts the thread if it isn't running.
    fn start(&self) -> io::Result<()> {
        let mut thread = locked(&self.thread);
        if thread.is_none() {
            let (started, waker) = start(&self.shared)?;
            *thread = Some(started);
            *locked(&self.shared.waker) = Some(waker);
        }
        Ok(())
    }

    /// Returns how many clients are served.
    pub fn clients(&self) -> usize {
        self.shared.clients.load(Ordering::Relaxed)
    }

    /// Closes all connections and ends the threads. Dropping a server stops it. Data that couldn't
    /// be saved are lost; they were never served.
    ///
    /// A callback of the server may call it, too: its thread ends once the callback has returned,
    /// for which a later call waits.
    pub fn stop(&self) {
        self.shared.stop.set();
        self.shared.wake();
        self.shared.cache.stop_saving();
        if let Some(thread) = self.other_thread() {
            let _ = thread.join();
            *locked(&self.shared.waker) = None;
        }
    }

    /// Takes the thread to wait for; none if it is the present one.
    fn other_thread(&self) -> Option<JoinHandle<()>> {
        let mut thread = locked(&self.thread);
        match &*thread {
            Some(own) if own.thread().id() == thread::current().id() => None,
            _ => thread.take(),
        }
    }
}

impl Shared {
    /// Wakes the thread.
    fn wake(&self) {
        if let Some(waker) = &*locked(&self.waker) {
            waker.wake();
        }
    }

    /// Logs the result of a retry of a save, and shows clients the data that are served now.
    fn retried(&self, saved: Result<&Data, SaveError>) {
        if let Some(log) = &self.log {
            log_retried(&**log, saved);
        }
        self.wake();
    }

    /// Logs an event at an address, if there is a log.
    fn tell(&self, level: LogLevel, message: &str, (name, address): (&str, SocketAddr)) {
        if let Some(log) = &self.log {
            log(level, message, &[(name, &address)]);
        }
    }
}

impl Drop for Server {
    fn drop(&mut self) {
        self.stop();
    }
}

/// Starts the thread of a server.
fn start(shared: &Arc<Shared>) -> io::Result<(JoinHandle<()>, Waker)> {
    let (host, waker) = Host::new(shared)?;
    let thread = thread::Builder::new().name("rtr cache".to_string());
    let run = move || {
        block_broken_pipes();
        host.run();
    };
    Ok((thread.spawn(run)?, waker))
}

/// The keys of the waker and of the first listener; keys of clients are below these.
const WOKEN: u64 = u64::MAX;
const LISTENERS: u64 = 1 << 63;

/// A client, and what it waits for.
struct Client {
    connection: Connection,
    /// How the door counts it.
    entry: Entry,
    /// Whether it waits to write.
    wants_room: bool,
    /// The deadline of that wait.
    wakes: u64,
}

/// The loop that serves clients, in a thread.
struct Host {
    begun: Instant,
    woken: Woken,
    poller: Poller,
    listeners: Vec<Listener>,
    /// Whether clients are accepted, and when accepting resumes.
    takes: bool,
    takes_from: u64,
    clients: BTreeMap<u64, Client>,
    /// The key of the next client.
    next: u64,
    door: Door,
    /// The earliest deadline of a client, or an earlier time.
    due: u64,
    moment: Moment,
    shared: Arc<Shared>,
}

impl Host {
    /// Creates a loop without clients, and its waker.
    fn new(shared: &Arc<Shared>) -> io::Result<(Host, Waker)> {
        let (waker, woken) = waker()?;
        let poller = Poller::new()?;
        poller.add(woken.socket(), WOKEN, false)?;
        let host = Host {
            begun: Instant::now(),
            woken,
            poller,
            listeners: Vec::new(),
            takes: false,
            takes_from: 0,
            clients: BTreeMap::new(),
            next: 0,
            door: Door::new(shared.cache.options()),
            due: u64::MAX,
            moment: shared.cache.at(0),
            shared: Arc::clone(shared),
        };
        Ok((host, waker))
    }

    fn run(mut self) {
        loop {
            let ready = self.wait();
            let is_new = self.look();
            if self.shared.stop.is_set() {
                return self.shared.clients.store(0, Ordering::Relaxed);
            }
            self.go_on(&ready);
            if is_new || self.due <= self.moment.now {
                self.go_on_by_time(is_new);
            }
            let clients = self.door.clients();
            self.shared.clients.store(clients, Ordering::Relaxed);
        }
    }

    /// Waits until a socket is ready or a deadline has come; returns the keys of ready sockets.
    fn wait(&mut self) -> Vec<u64> {
        let now = milliseconds_since(self.begun);
        let pause = Some(self.takes_from).filter(|time| *time > now);
        self.listen(pause.is_none() && self.accepts());
        let wakes = self.due.min(pause.unwrap_or(u64::MAX));
        let ready = self.poller.wait(wakes.saturating_sub(now));
        self.moment.now = milliseconds_since(self.begun);
        ready
    }

    /// Reports whether another client is accepted now. Whether the system then has another
    /// descriptor is known only after that.
    fn accepts(&self) -> bool {
        self.door.next(true) != Entry::Wait
    }

    /// Starts or stops waiting for listeners.
    fn listen(&mut self, takes: bool) {
        if takes == self.takes {
            return;
        }
        self.takes = takes;
        for (listener, key) in self.listeners.iter().zip(LISTENERS..) {
            if takes {
                let _ = self.poller.add(&listener.socket, key, false);
            } else {
                self.poller.remove(&listener.socket);
            }
        }
    }

    /// Takes over new listeners and data; returns whether there are new data.
    fn look(&mut self) -> bool {
        self.woken.clear(); // before it looks: a later change wakes it again
        let mut listeners = take(&mut *locked(&self.shared.listeners));
        if !listeners.is_empty() {
            self.listen(false);
            self.listeners.append(&mut listeners);
        }
        let known = take(&mut self.moment.newest);
        self.moment = self.shared.cache.at(self.moment.now);
        let newest = self.moment.newest.as_ref();
        newest.map(Arc::as_ptr) != known.as_ref().map(Arc::as_ptr)
    }

    /// Serves all clients that are ready, and accepts new ones.
    fn go_on(&mut self, ready: &[u64]) {
        for key in ready {
            match key.checked_sub(LISTENERS).map(usize::try_from) {
                _ if *key == WOKEN => {}
                Some(Ok(at)) => self.accept(at),
                _ => self.act(*key, true),
            }
        }
        let connections = take(&mut *locked(&self.shared.connections));
        for (socket, from) in connections {
            self.serve(socket, from, true);
        }
    }

    /// Serves a client.
    fn act(&mut self, key: u64, is_ready: bool) {
        let client = match self.clients.get_mut(&key) {
            Some(client) => client,
            None => return,
        };
        let connection = &mut client.connection;
        let (moment, begun) = (&mut self.moment, self.begun);
        moment.now = milliseconds_since(begun);
        let clock = || milliseconds_since(begun);
        connection.go_on(moment, clock, &self.shared.ended, is_ready);
        if connection.is_over() {
            self.poller.remove(&connection.socket());
            self.door.leave(client.entry);
            self.clients.remove(&key);
            return;
        }
        let wants_room = connection.is_sending();
        if wants_room != client.wants_room {
            client.wants_room = wants_room;
            self.poller.change(&connection.socket(), key, wants_room);
        }
        client.wakes = connection.wakes(&self.moment);
        self.due = self.due.min(client.wakes);
    }

    /// Serves all clients whose deadline has come; at new data, all clients.
    fn go_on_by_time(&mut self, is_new: bool) {
        let (mut late, mut due) = (Vec::new(), u64::MAX);
        for (key, client) in &self.clients {
            if is_new || client.wakes <= self.moment.now {
                late.push(*key);
            } else {
                due = due.min(client.wakes);
            }
        }
        self.due = due;
        for key in late {
            self.act(key, false);
        }
    }

    /// Accepts the clients that wait at a listener, a few at a time.
    fn accept(&mut self, at: usize) {
        for _ in 0..MOST_TAKEN {
            if !self.accepts() {
                return;
            }
            match self.listeners[at].socket.accept() {
                Ok((stream, from)) => self.take_in(at, stream, from),
                Err(error) if has_to_wait(&error) => return,
                Err(_) => {
                    self.takes_from = self.moment.now + PAUSE;
                    return;
                }
            }
        }
    }

    /// Accepts a client.
    fn take_in(&mut self, at: usize, stream: TcpStream, from: SocketAddr) {
        let has_spare = stream.try_clone().is_ok();
        limit_unsent(&stream, UNSENT);
        if stream.set_nonblocking(true).is_err() || stream.set_nodelay(true).is_err() {
            return; // the client has closed already
        }
        match (self.listeners[at].ready)(stream) {
            Ok(socket) => self.serve(socket, from, has_spare),
            Err(error) => (self.shared.ended)(from, &ServerError::Io(error)),
        }
    }

    /// Serves a client, or refuses it, as the door decides. `has_spare` reports whether the system
    /// has a descriptor beside that of the client.
    fn serve(&mut self, socket: Box<dyn Socket>, from: SocketAddr, has_spare: bool) {
        self.shared
            .tell(LogLevel::Debug, "connected", ("client", from));
        let entry = self.door.enter(has_spare);
        if entry == Entry::Wait {
            return (self.shared.ended)(from, &ServerError::TooManyClients);
        }
        let key = self.next;
        let mut connection = Connection::new(socket, from, &self.moment);
        if let Err(error) = self.poller.add(&connection.socket(), key, false) {
            self.door.leave(entry);
            return (self.shared.ended)(from, &ServerError::Io(error));
        }
        self.next += 1;
        if entry == Entry::Refuse {
            connection.refuse(&self.moment);
        }
        let client = Client {
            connection,
            entry,
            wants_room: false,
            wakes: 0,
        };
        self.clients.insert(key, client);
        self.act(key, false);
    }
}

#[cfg(test)]
mod tests {
    use super::{milliseconds_since, Host, Listener, Server, ServerOptions, PAUSE, WOKEN};
    use std::boxed::Box;
    use std::net::{Ipv4Addr, TcpListener, UdpSocket};
    use std::os::unix::io::OwnedFd;
    use std::os::unix::net::UnixStream;
    use std::vec;

    #[test]
    fn a_change_after_a_look_wakes_again() {
        let server = Server::new(ServerOptions::default());
        let (mut host, waker) = Host::new(&server.shared).unwrap();
        waker.wake();
        let ready = host.wait();
        assert_eq!(ready, [WOKEN]);
        assert!(!host.look());
        host.go_on(&ready);
        assert!(host.poller.wait(0).is_empty());

        waker.wake();
        let ready = host.wait();
        host.look();
        waker.wake();
        host.go_on(&ready);
        assert_eq!(host.poller.wait(0), [WOKEN]);
    }

    /// Accepting pauses after the system refused it, and resumes; an empty queue is no refusal.
    #[test]
    fn pauses_of_accepting() {
        let server = Server::new(ServerOptions::default());
        let (mut host, waker) = Host::new(&server.shared).unwrap();
        let empty = TcpListener::bind("127.0.0.1:0").unwrap();
        empty.set_nonblocking(true).unwrap();
        let refusing: OwnedFd = UdpSocket::bind("127.0.0.1:0").unwrap().into();
        for (socket, pauses) in [(empty, false), (refusing.into(), true)] {
            let ready = Box::new(|stream| Ok(Box::new(stream) as Box<_>));
            host.listeners = vec![Listener { socket, ready }];
            host.accept(0);
            assert_eq!(host.takes_from > host.moment.now, pauses);
        }
        waker.wake(); // so that no wait is long
        while !host.takes {
            host.wait();
        }
        assert!(milliseconds_since(host.begun) >= PAUSE);
    }

    /// A socket that the program keeps isn't waited for once its client has gone.
    #[test]
    fn a_socket_that_is_kept() {
        let server = Server::new(ServerOptions::default());
        let (mut host, _waker) = Host::new(&server.shared).unwrap();
        let (router, stream) = UnixStream::pair().unwrap();
        stream.set_nonblocking(true).unwrap();
        let _kept = stream.try_clone().unwrap();
        host.serve(Box::new(stream), (Ipv4Addr::LOCALHOST, 0).into(), true);
        assert!(host.poller.wait(0).is_empty());
        drop(router);
        let ready = host.poller.wait(0);
        assert_eq!(ready.len(), 1);
        host.go_on(&ready);
        assert!(host.clients.is_empty());
        assert_eq!(host.door.clients(), 0);
        assert!(host.poller.wait(0).is_empty());
    }
}
