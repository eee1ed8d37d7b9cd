//! A cache.

use crate::carrying::{Carried, Wanted};
use rtr_wire::{log_retried, Log, LogFields, LogLevel};
use rtr_wire::{Cache, Data, Door, EndOfData, Entry, Moment, Served, ServedStep};
use rtr_wire::{SaveError, ServerError, ServerOptions, UpdateError};
use std::fmt;
use std::future::{pending, Future};
use std::io;
use std::net::SocketAddr;
use std::path::Path;
use std::sync::Arc;
use std::time::Duration;
use tokio::io::{AsyncRead, AsyncWrite};
use tokio::net::{TcpListener, TcpStream};
use tokio::sync::watch;
use tokio::task::JoinSet;
use tokio::time::{sleep, sleep_until, Instant};

/// How long to accept no connection after the system refused one.
const PAUSE: Duration = Duration::from_millis(100);

/// Gets the reason of each connection that the server ends.
type Ended = dyn Fn(SocketAddr, &ServerError) + Send + Sync;

/// A cache (RFC 8210), for clients of versions 0 to 2, over TCP, or over connections that the
/// caller accepts. Its rules and limits are those of [`rtr_wire::Server`]. A clone is the same
/// cache.
///
/// Each client has a task, no thread, which wakes only for bytes, new data and its limits. The task
/// of the first client that asks for a version or for changes encodes them, for all.
///
/// Clients that connect over TLS:
///
/// ```no_run
/// use openssl::ssl::{Ssl, SslAcceptor};
/// use rtr_wire_tokio::AsyncServer;
/// use std::io::{self, ErrorKind};
/// use std::pin::Pin;
/// use tokio::net::TcpListener;
/// use tokio_openssl::SslStream;
///
/// async fn serve(server: AsyncServer, acceptor: SslAcceptor) -> io::Result<()> {
///     let listener = TcpListener::bind("192.0.2.1:324").await?;
///     let taking = move |stream| {
///         let ssl = Ssl::new(acceptor.context());
///         async move {
///             let mut stream = SslStream::new(ssl?, stream)?;
///             let accepted = Pin::new(&mut stream).accept().await;
///             accepted.map_err(|error| io::Error::new(ErrorKind::Other, error))?;
///             Ok(stream)
///         }
///     };
///     server.serve_with(listener, taking).await
/// }
/// ```
#[derive(Clone)]
pub struct AsyncServer {
    shared: Arc<Shared>,
}

/// What the tasks of a server share.
struct Shared {
    cache: Cache,
    ended: Box<Ended>,
    log: Option<Arc<Log>>,
    begun: Instant,
    /// Notifies tasks of new data; the value is true once the server was stopped.
    changes: watch::Sender<bool>,
    /// Counts connections, and notifies tasks when one was closed.
    door: watch::Sender<Door>,
}

/// A connection that the door counts until this is dropped, and what it gets.
struct Entered {
    shared: Arc<Shared>,
    entry: Entry,
}

impl Drop for Entered {
    fn drop(&mut self) {
        self.shared.door.send_modify(|door| {
            door.leave(self.entry);
        });
    }
}

impl AsyncServer {
    /// Returns a server without data, which doesn't save ([`AsyncServer::save_to`]).
    #[must_use]
    pub fn new(options: ServerOptions) -> Self {
        AsyncServer::telling(options, |_, _| {})
    }

    /// Returns a server without data that reports why it ended the connection of a client.
    pub fn telling(
        options: ServerOptions,
        ended: impl Fn(SocketAddr, &ServerError) + Send + Sync + 'static,
    ) -> Self {
        AsyncServer::of(options, Box::new(ended), None)
    }

    /// Returns a server without data that logs each connection, why it ended, and new data: a
    /// message, and fields by their names.
    pub fn logging(
        options: ServerOptions,
        log: impl Fn(LogLevel, &str, &LogFields<'_>) + Send + Sync + 'static,
    ) -> Self {
        let log: Arc<Log> = Arc::new(log);
        let ended_log = Arc::clone(&log);
        let ended = move |from: SocketAddr, error: &ServerError| {
            ended_log(
                LogLevel::Info,
                "ended",
                &[("client", &from), ("error", error)],
            );
        };
        AsyncServer::of(options, Box::new(ended), Some(log))
    }

    fn of(options: ServerOptions, ended: Box<Ended>, log: Option<Arc<Log>>) -> Self {
        let shared = Arc::new(Shared {
            door: watch::channel(Door::new(&options)).0,
            cache: Cache::new(options),
            ended,
            log,
            begun: Instant::now(),
            changes: watch::channel(false).0,
        });
        let retrying = Arc::downgrade(&shared);
        shared.cache.on_retry(move |saved| {
            if let Some(shared) = retrying.upgrade() {
                shared.retried(saved);
            }
        });
        AsyncServer { shared }
    }

    /// Serves these data from now on, with the session and the serial number of their end of data.
    /// Returns whether they differ from the present ones.
    ///
    /// A server that saves does so first, and blocks on the file system: call it where a task may
    /// block, as in `spawn_blocking`. If that fails, the present data are still served, and a
    /// thread retries after 1, 2, 4 .. seconds, up to a minute, until it succeeds, or other data
    /// come; [`AsyncServer::logging`] logs each retry.
    ///
    /// # Errors
    ///
    /// `NewTimings`; `SerialNotAfter`, also for the same payloads with an earlier serial number;
    /// `Times` if RFC 8210 section 6 doesn't allow their times; `SessionLeft`, `OtherSession`;
    /// `HigherVersion`; or `NotSaved`.
    pub fn update(&self, data: Data) -> Result<bool, UpdateError> {
        let update_log = self.shared.log.as_ref().map(|log| (log, data.clone()));
        let is_new = self.shared.cache.update(data)?;
        if is_new {
            if let Some((log, data)) = update_log {
                data.log_served(&**log);
            }
            self.shared.changes.send_modify(|_| {});
        }
        Ok(is_new)
    }

    /// Saves data to this file from now on, before they are served, and serves the data that the
    /// file has from an earlier run, as [`rtr_wire::Server::save_to`] does: the file of one is that
    /// of the other. Returns these data; none if there is no file. Call it once, before the first
    /// data. It blocks on the file system.
    ///
    /// # Errors
    ///
    /// Those of reading; `InvalidData` for a file that was changed or damaged, or whose data
    /// [`AsyncServer::update`] would refuse; `AlreadyExists` if the server has data, or a file.
    /// Then nothing changes.
    pub fn save_to(&self, path: impl AsRef<Path>) -> io::Result<Option<Data>> {
        let data = self.shared.cache.save_to(path)?;
        self.shared.changes.send_modify(|_| {});
        Ok(data)
    }

    /// Lets the next data of a server that doesn't save be of another session (RFC 8210 section
    /// 5.1), which it never used, at no earlier start either. The present data are served until
    /// then. A server that saves knows the sessions that it left, and ignores this call.
    pub fn change_session(&self) {
        self.shared.cache.change_session();
    }

    /// Returns the end of the data that are served, with session and serial number.
    #[must_use]
    pub fn end(&self) -> Option<EndOfData> {
        self.shared.cache.end()
    }

    /// Returns the number of clients that are served.
    #[must_use]
    pub fn clients(&self) -> usize {
        self.shared.door.borrow().clients()
    }

    /// Ends all calls that serve clients, closes their connections, and ends the thread that
    /// retries to save. Data that couldn't be saved are lost; they were never served.
    pub fn stop(&self) {
        self.shared.changes.send_modify(|stops| *stops = true);
        self.shared.cache.stop_saving();
    }

    /// Serves clients over TCP until the server is stopped. TCP doesn't encrypt, nor authenticate a
    /// client (RFC 8210 section 9). Dropping the future closes their connections.
    ///
    /// # Errors
    ///
    /// Those of a socket that doesn't listen.
    pub async fn serve(&self, listener: TcpListener) -> io::Result<()> {
        self.serve_with(listener, |stream| async { Ok(stream) })
            .await
    }

    /// Serves as [`AsyncServer::serve`] does, with a function that prepares each connection, such
    /// as by a handshake of TLS. It has the time of [`ServerOptions::first_query`], and no other
    /// client waits for it.
    ///
    /// # Errors
    ///
    /// Those of a socket that doesn't listen.
    pub async fn serve_with<S, F>(
        &self,
        listener: TcpListener,
        ready: impl Fn(TcpStream) -> F,
    ) -> io::Result<()>
    where
        S: AsyncRead + AsyncWrite + Unpin + Send + 'static,
        F: Future<Output = io::Result<S>> + Send + 'static,
    {
        let listener = listener.into_std()?;
        let descriptor = listener.try_clone()?;
        let listener = TcpListener::from_std(listener)?;
        let mut connections = JoinSet::new();
        let mut changes = self.shared.changes.subscribe();
        let mut door = self.shared.door.subscribe();
        while !*changes.borrow_and_update() {
            let takes = door.borrow_and_update().next(true) != Entry::Wait;
            tokio::select! {
                biased;
                _ = changes.changed() => {}
                Some(_) = connections.join_next() => {}
                _ = door.changed(), if !takes => {}
                accepted = listener.accept(), if takes => match accepted {
                    Ok((stream, from)) => {
                        let has_spare = descriptor.try_clone().is_ok();
                        if let Some(entered) = self.shared.enter(from, has_spare) {
                            let _ = stream.set_nodelay(true);
                            connections.spawn(entered.serve(ready(stream), from));
                        }
                    }
                    Err(_) => sleep(PAUSE).await,
                },
            }
        }
        Ok(())
    }

    /// Serves a client over a connection from this address, until it ends or the server is stopped.
    pub async fn serve_connection<S>(&self, stream: S, from: SocketAddr)
    where
        S: AsyncRead + AsyncWrite + Unpin,
    {
        if let Some(entered) = self.shared.enter(from, true) {
            entered.serve(async { Ok(stream) }, from).await;
        }
    }
}

impl fmt::Debug for AsyncServer {
    fn fmt(&self, f: &mut fmt::Formatter<'_>) -> fmt::Result {
        let mut shown = f.debug_struct("AsyncServer");
        shown.field("cache", &self.shared.cache);
        shown.finish_non_exhaustive()
    }
}

impl Shared {
    /// Logs the result of a retry of a save, and shows clients the data that are served now.
    fn retried(&self, saved: Result<&Data, SaveError>) {
        if let Some(log) = &self.log {
            log_retried(&**log, saved);
        }
        self.changes.send_modify(|_| {});
    }

    /// Returns the time by the server's clock, in milliseconds.
    fn now(&self) -> u64 {
        u64::try_from(self.begun.elapsed().as_millis()).unwrap_or(u64::MAX)
    }

    /// Returns the present data of the cache.
    fn moment(&self) -> Moment {
        self.cache.at(self.now())
    }

    /// Sleeps until this time of the server's clock.
    async fn sleep_until(&self, time: u64) {
        match self.begun.checked_add(Duration::from_millis(time)) {
            Some(time) => sleep_until(time).await,
            None => pending().await,
        }
    }

    /// Counts a connection that was accepted. Returns none if it has to be closed: there are too
    /// many. `has_spare` reports whether the system has a descriptor beside its own.
    fn enter(self: &Arc<Self>, from: SocketAddr, has_spare: bool) -> Option<Entered> {
        if let Some(log) = &self.log {
            log(LogLevel::Debug, "connected", &[("client", &from)]);
        }
        let mut entry = Entry::Wait;
        self.door.send_if_modified(|door| {
            entry = door.enter(has_spare);
            false // nobody waits for this
        });
        if entry == Entry::Wait {
            (self.ended)(from, &ServerError::TooManyClients);
            return None;
        }
        let shared = Arc::clone(self);
        Some(Entered { shared, entry })
    }
}

impl Entered {
    /// Serves or refuses the client, once this future has prepared its connection.
    async fn serve<S>(self, ready: impl Future<Output = io::Result<S>>, from: SocketAddr)
    where
        S: AsyncRead + AsyncWrite + Unpin,
    {
        let shared = &*self.shared;
        let mut served = Served::new(&shared.moment());
        let wakes = served.wakes(&shared.moment());
        let prepared = tokio::select! {
            biased;
            prepared = ready => prepared,
            () = shared.sleep_until(wakes) => {
                if let ServedStep::Ended(error) = served.next(&shared.moment()) {
                    (shared.ended)(from, &error);
                }
                return;
            }
        };
        match prepared {
            Ok(stream) => {
                if self.entry == Entry::Refuse {
                    served.refuse(&shared.moment());
                }
                shared.carry(Carried::new(stream, served), from).await;
            }
            Err(error) => (shared.ended)(from, &ServerError::Io(error)),
        }
    }
}

impl Shared {
    /// Sends and reads on the connection until it ends.
    async fn carry<S>(&self, mut carried: Carried<S>, from: SocketAddr)
    where
        S: AsyncRead + AsyncWrite + Unpin,
    {
        let mut changes = self.changes.subscribe();
        while !*changes.borrow_and_update() {
            let moment = self.moment();
            let awaited = match carried.next(&moment) {
                ServedStep::Receive => Wanted::Bytes,
                ServedStep::Send => Wanted::Room,
                ServedStep::Ended(error) => {
                    (self.ended)(from, &error);
                    continue;
                }
                ServedStep::Close if carried.holds && carried.wakes(&moment) > self.now() => {
                    Wanted::Flush
                }
                _ => return,
            };
            let wakes = carried.wakes(&moment);
            tokio::select! {
                biased;
                _ = changes.changed() => {}
                () = carried.carry(awaited, || self.moment()) => {}
                () = self.sleep_until(wakes) => {}
            }
        }
    }
}
