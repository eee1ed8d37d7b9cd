//! A router's end of a session.

use crate::asking::Askings;
use crate::client_error::ClientError;
use crate::log::{Log, LogFields, LogLevel};
use crate::options::ClientOptions;
use crate::owned_data::Data;
use crate::router::Event;
use crate::running::{dial, Follower};
use crate::socket::Socket;
use crate::timed::Stop;
use std::boxed::Box;
use std::fmt;
use std::io;
use std::ops::ControlFlow;
use std::string::String;
use std::time::Duration;

/// A router's end: it asks a cache for data, and follows their changes (RFC 8210 sections 6 to 8),
/// in one thread, which wakes only for bytes and times.
///
/// It asks for all data, and then for changes: after a notify of the cache, and when the refresh
/// interval has passed. The data are always the cache's data of one serial number: either all
/// changes of an answer are applied, or none. It falls back to the version of the cache (RFC
/// 8210 section 7). After a cache reset it asks for all data (section 8.3); in a new session it
/// drops its data (section 5.1). After a fault of the cache it sends the report that is owed,
/// closes the connection and reconnects. Data that can't be refreshed are dropped when they expire
/// (section 6).
///
/// No cache can make it use more memory and time than [`ClientOptions`] allow: at most some five
/// times the bytes of an answer.
///
/// Plain TCP neither encrypts nor authenticates the cache (RFC 8210 section 9);
/// [`over`](Client::over) takes connections that do.
///
/// ```
/// use rtr_wire::{Client, ClientOptions, Data, Server, ServerOptions};
///
/// let server = Server::new(ServerOptions::default());
/// let address = server.listen("127.0.0.1:0")?;
/// let data = Data::new(1, 4660, 1, None)?;
/// server.update(data.clone())?;
///
/// let client = Client::new(address.to_string(), ClientOptions::default());
/// assert_eq!(client.fetch()?, data);
/// # Ok::<(), Box<dyn std::error::Error>>(())
/// ```
pub struct Client {
    pub(crate) dial: Box<Dial>,
    pub(crate) options: ClientOptions,
    pub(crate) stop: Stop,
    pub(crate) askings: Askings,
    pub(crate) log: Option<Box<Log>>,
}

/// The function that opens connections, each within a time.
pub(crate) type Dial = dyn Fn(Duration) -> io::Result<Box<dyn Socket>> + Send + Sync;

impl Client {
    /// Returns a client of the cache at this address: a host name or an IPv4 address, a colon and a
    /// port, or an IPv6 address in brackets, a colon and a port.
    pub fn new(address: impl Into<String>, options: ClientOptions) -> Self {
        let address = address.into();
        Client::over(options, move |time| dial(&address, time))
    }

    /// Returns a client whose connections this function opens, each within the time that it gets:
    /// over TLS, for example.
    pub fn over<S: Socket + 'static>(
        options: ClientOptions,
        dial: impl Fn(Duration) -> io::Result<S> + Send + Sync + 'static,
    ) -> Self {
        Client {
            dial: Box::new(move |time| Ok(Box::new(dial(time)?))),
            options,
            stop: Stop::default(),
            askings: Askings::default(),
            log: None,
        }
    }

    /// Sets a log, which gets each connection, change of data and failure: a message, and fields by
    /// name.
    #[must_use]
    pub fn with_log(
        self,
        log: impl Fn(LogLevel, &str, &LogFields<'_>) + Send + Sync + 'static,
    ) -> Self {
        Client {
            log: Some(Box::new(log)),
            ..self
        }
    }

    /// Asks once for all data, and falls back to the version of the cache.
    ///
    /// # Errors
    ///
    /// Any except `Expired`.
    pub fn fetch(&self) -> Result<Data, ClientError> {
        Follower::new(self, None).fetch()
    }

    /// Follows the data of the cache until the client is stopped or `on` breaks, and returns the
    /// data that it has then, if they haven't expired.
    pub fn run(&self, on: impl FnMut(Event<'_>) -> ControlFlow<()>) -> Option<Data> {
        Follower::new(self, None).run(on)
    }

    /// Requests current data, from any thread: [`run`](Client::run), also under
    /// [`follow`](crate::follow()), asks the cache or connects earlier
    /// ([`Router::ask_now`](crate::Router::ask_now)). No-op if the client doesn't run.
    pub fn ask_now(&self) {
        self.askings.ask();
    }

    /// Makes [`run`](Client::run) and [`fetch`](Client::fetch) return, from another thread or a
    /// signal handler: at once, except while connecting.
    pub fn stop(&self) {
        self.stop.set();
    }
}

impl fmt::Debug for Client {
    fn fmt(&self, f: &mut fmt::Formatter<'_>) -> fmt::Result {
        let mut shown = f.debug_struct("Client");
        shown.field("options", &self.options);
        shown.field("stop", &self.stop).finish_non_exhaustive()
    }
}
