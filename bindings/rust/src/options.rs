//! The limits of a client and of a cache.

#[cfg(feature = "std")]
use crate::abi::{CacheSettings, ServerSettings};
use crate::abi::{Settings, HIGHEST_VERSION, USUAL_VERSION};
use crate::abi::{LAST_REPORT_BYTES, LAST_REPORT_LIMIT};
use crate::sys::{self, milliseconds};
use core::time::Duration;

/// The options of a [`Client`](crate::Client): what it asks for, and what it allows a cache.
///
/// ```
/// use rtr_wire::ClientOptions;
///
/// let options = ClientOptions { version: 2, ..ClientOptions::default() };
/// assert_eq!(options.bytes, 1 << 27);
/// ```
#[derive(Clone, Debug)]
pub struct ClientOptions {
    /// The highest version to ask in (default 1). Version 2 adds ASPAs, for which caches in use
    /// have several layouts.
    pub version: u8,
    /// The time limit for connecting (default 30 seconds).
    pub dial: Duration,
    /// The time limit from a query to its end of data (default 2 minutes).
    pub response: Duration,
    /// The most bytes of the payload units of an answer (default 128 MiB).
    pub bytes: usize,
    /// The most payload units of an answer (default 4 million).
    pub units: u64,
    /// The least time between two queries, and between two connections (default 1 second).
    pub pause: Duration,
    /// The time for a report to be sent and to be read by the cache (default 2 seconds).
    pub report: Duration,
    /// The refresh time (default: the cache's).
    pub refresh: Option<Duration>,
    /// The retry time after a query that failed (default: the cache's).
    pub retry: Option<Duration>,
    /// The expire time of data that can't be refreshed (default: the cache's).
    pub expire: Option<Duration>,
}

impl Default for ClientOptions {
    fn default() -> Self {
        let usual = sys::usual_settings(HIGHEST_VERSION);
        ClientOptions {
            version: USUAL_VERSION,
            dial: span(usual.connect_limit),
            response: span(usual.response_limit),
            bytes: usize::try_from(usual.most_bytes).unwrap_or(usize::MAX),
            units: usual.most_units.into(),
            pause: span(usual.pause),
            report: span(LAST_REPORT_LIMIT),
            refresh: None,
            retry: None,
            expire: None,
        }
    }
}

impl ClientOptions {
    /// The highest version of the protocol; the lowest is 0.
    pub const HIGHEST_VERSION: u8 = HIGHEST_VERSION;

    /// The most bytes that a client reads from the cache, and ignores, before it closes a
    /// connection to which it sent a report: one that is closed with unread bytes is reset, and the
    /// report may be lost.
    pub const LAST_BYTES: usize = LAST_REPORT_BYTES;

    /// Returns how long connecting to the next of this many addresses of a host name may take: each
    /// gets an equal share of the time that is left, as in each language of this library.
    ///
    /// ```
    /// use rtr_wire::ClientOptions;
    /// use std::time::Duration;
    ///
    /// let left = Duration::from_secs(30);
    /// assert_eq!(ClientOptions::share_of(left, 3).as_secs(), 10);
    /// ```
    #[must_use]
    pub fn share_of(left: Duration, addresses: usize) -> Duration {
        left / u32::try_from(addresses).unwrap_or(u32::MAX).max(1)
    }

    /// Returns the settings of a router's machine with these options and this random number.
    pub(crate) fn settings(&self, chance: u16) -> Settings {
        let span = |time: Option<Duration>| time.map_or(0, milliseconds);
        Settings {
            most_bytes: self.bytes as u64,
            pause: milliseconds(self.pause),
            connect_limit: milliseconds(self.dial),
            response_limit: milliseconds(self.response),
            refresh: span(self.refresh),
            retry: span(self.retry),
            expire: span(self.expire),
            most_units: u32::try_from(self.units).unwrap_or(u32::MAX),
            chance,
            ..sys::usual_settings(self.version)
        }
    }
}

/// The limits of a [`Server`](crate::Server).
///
/// ```
/// use rtr_wire::ServerOptions;
///
/// let options = ServerOptions { connections: 50, ..ServerOptions::default() };
/// assert_eq!(options.keep.as_secs(), 7200);
/// ```
#[derive(Clone, Debug)]
pub struct ServerOptions {
    /// The most clients served at once (default 1024). One more gets a report of code 1.
    pub connections: usize,
    /// The most clients above that limit that get such a report at once (default 64). Further ones
    /// wait in the system's queue.
    pub refused: usize,
    /// How long deltas from earlier data are kept after newer data came (default 2 hours).
    pub keep: Duration,
    /// The most bytes of steps back to earlier data, with 16 bytes for each step, and of encoded
    /// deltas (default 64 MiB each).
    pub keep_bytes: usize,
    /// Whether to close with a report of code 0, instead of sending a cache reset, if a client's
    /// serial number isn't known any more: BIRD 2.0 asks again soon only after such a report.
    pub refuse: bool,
    /// The time limit for a client's first query (default 30 seconds).
    pub first_query: Duration,
    /// The time limit for receiving a unit (default 10 seconds).
    pub unit: Duration,
    /// The time limit between queries of a client (default 25 hours): a router asks at least once a
    /// day (RFC 8210 section 6).
    pub idle: Duration,
    /// How long a client may receive no byte of an answer (default 30 seconds).
    pub write: Duration,
    /// The time limit for a whole answer (default 10 minutes).
    pub response: Duration,
    /// The time for a last report to be sent and to be read by the client (default 10 seconds).
    pub report: Duration,
    /// How many newer data may come while a client is sent an answer (default 2).
    pub behind: usize,
    /// The least time between two notifies to a client (default 1 minute, RFC 8210 section 8.2).
    pub notify: Duration,
}

impl Default for ServerOptions {
    fn default() -> Self {
        let usual = sys::usual_server_settings();
        ServerOptions {
            connections: usize::try_from(usual.most_connections).unwrap_or(usize::MAX),
            refused: usize::try_from(usual.most_refused).unwrap_or(usize::MAX),
            keep: Duration::from_millis(usual.keep),
            keep_bytes: usual.keep_bytes,
            refuse: usual.cache.refuses,
            first_query: span(usual.cache.first_limit),
            unit: span(usual.unit_limit),
            idle: span(usual.cache.idle_limit),
            write: span(usual.write_limit),
            response: span(usual.response_limit),
            report: span(usual.report_limit),
            behind: usize::try_from(usual.most_behind).unwrap_or(usize::MAX),
            notify: span(usual.cache.pause),
        }
    }
}

#[cfg(feature = "std")]
impl ServerOptions {
    /// Returns the limits of a server with these options.
    pub(crate) fn settings(&self) -> ServerSettings {
        ServerSettings {
            cache: CacheSettings {
                first_limit: milliseconds(self.first_query),
                idle_limit: milliseconds(self.idle),
                pause: milliseconds(self.notify),
                refuses: self.refuse,
            },
            keep: u64::try_from(self.keep.as_millis()).unwrap_or(u64::MAX),
            keep_bytes: self.keep_bytes,
            unit_limit: milliseconds(self.unit),
            write_limit: milliseconds(self.write),
            response_limit: milliseconds(self.response),
            report_limit: milliseconds(self.report),
            most_connections: count(self.connections),
            most_refused: count(self.refused),
            most_behind: count(self.behind),
        }
    }
}

/// Converts the machine's milliseconds to a duration.
pub(crate) fn span(milliseconds: u32) -> Duration {
    Duration::from_millis(milliseconds.into())
}

/// Converts a number to the machine's, or to its highest number.
#[cfg(feature = "std")]
fn count(number: usize) -> u32 {
    u32::try_from(number).unwrap_or(u32::MAX)
}
