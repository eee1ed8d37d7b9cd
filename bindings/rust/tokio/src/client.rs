//! A client.

use crate::running::{Dialed, Running};
use rtr_wire::{ClientError, ClientOptions, Data, Event, LogFields, LogLevel, News, Step};
use std::collections::hash_map::RandomState;
use std::fmt;
use std::future::Future;
use std::hash::{BuildHasher, Hasher};
use std::io::{self, ErrorKind};
use std::net::SocketAddr;
use std::pin::Pin;
use std::task::{Context, Poll};
use std::time::Duration;
use tokio::io::{AsyncRead, AsyncWrite};
use tokio::net::{lookup_host, TcpStream};
use tokio::time::{timeout, Instant};

/// A client: it queries a cache for data, and follows their changes, over connections that its
/// caller opens. Its rules are those of [`rtr_wire::Client`].
///
/// It runs while [`next`](AsyncClient::next) or [`fetch`](AsyncClient::fetch) is awaited, and wakes
/// only for bytes and for its time limits and the cache's. Such a future may be dropped at any
/// time: the client keeps what was read and sent, and a connection that is being made, for the next
/// call. A client that is dropped closes its connection.
///
/// ```no_run
/// use rtr_wire::{ClientOptions, Event};
/// use rtr_wire_tokio::AsyncClient;
///
/// # async fn follow() {
/// let mut client = AsyncClient::tcp("rtr.example:323", ClientOptions::default());
/// loop {
///     match client.next().await {
///         Event::Data { data, changes } => {
///             println!("serial {}: {} changes", data.end().serial, changes.len());
///         }
///         Event::Failed(error) => eprintln!("{error}"),
///         _ => {}
///     }
/// }
/// # }
/// ```
pub struct AsyncClient<S> {
    running: Running<S>,
    /// The last step with an event.
    last: Option<Step>,
}

impl AsyncClient<TcpStream> {
    /// Returns a client of the cache at this address over TCP: a name or an IPv4 address, a colon
    /// and a port, or an IPv6 address in brackets, a colon and a port. It tries each address of a
    /// name. TCP doesn't encrypt, nor authenticate the cache (RFC 8210 section 9).
    pub fn tcp(address: impl Into<String>, options: ClientOptions) -> Self {
        let (address, limit) = (address.into(), options.dial);
        AsyncClient::new(options, move || dial(address.clone(), limit))
    }
}

impl<S: AsyncRead + AsyncWrite + Unpin> AsyncClient<S> {
    /// Returns a client whose connections this function makes, each within
    /// [`ClientOptions::dial`].
    pub fn new<F>(options: ClientOptions, dial: impl FnMut() -> F + Send + 'static) -> Self
    where
        F: Future<Output = io::Result<S>> + Send + 'static,
    {
        // A hasher is the only source of random numbers in the standard library.
        let random = RandomState::new().build_hasher().finish().to_be_bytes();
        let random = u16::from_be_bytes([random[0], random[1]]);
        AsyncClient::with_random(options, random, dial)
    }

    /// Creates a client as [`AsyncClient::new`] does, with this random number, which varies the
    /// waits of many clients.
    pub fn with_random<F>(
        options: ClientOptions,
        random: u16,
        mut dial: impl FnMut() -> F + Send + 'static,
    ) -> Self
    where
        F: Future<Output = io::Result<S>> + Send + 'static,
    {
        let dial = Box::new(move || -> Dialed<S> { Box::pin(dial()) });
        AsyncClient {
            running: Running::new(options, random, dial),
            last: None,
        }
    }

    /// Sets a log, which gets each connection, change of data and failure: a message, and fields by
    /// their names.
    #[must_use]
    pub fn with_log(
        mut self,
        log: impl Fn(LogLevel, &str, &LogFields<'_>) + Send + Sync + 'static,
    ) -> Self {
        self.running.log = Some(Box::new(log));
        self
    }

    /// Requests the present data: the next call of [`next`](AsyncClient::next) queries the cache,
    /// or connects, before it is time
    /// ([`Router::ask_now`](rtr_wire::Router::ask_now)).
    pub fn ask_now(&mut self) {
        self.running.router.ask_now();
    }

    /// Returns all data of the cache, if there are some that haven't expired.
    pub fn data(&self) -> Option<&Data> {
        let router = &self.running.router;
        router
            .data()
            .filter(|_| router.has_data(self.running.now()))
    }

    /// Waits until the data changed, or a connection or a query failed, and returns that event. The
    /// next call continues.
    #[allow(clippy::missing_panics_doc)] // It can't: each such step has an event.
    pub async fn next(&mut self) -> Event<'_> {
        self.last = None; // which frees the data before the last ones
        Going(self).await;
        let last = self.last.as_ref();
        let event = last.and_then(|step| self.running.router.event(step));
        event.expect("such a step has an event")
    }

    /// Waits until there are data, and returns them, or until a failure.
    ///
    /// # Errors
    ///
    /// Any but `Stopped`.
    pub async fn fetch(&mut self) -> Result<Data, ClientError> {
        loop {
            if let Some(data) = self.data() {
                return Ok(data.clone());
            }
            Going(self).await;
            if let Some(Step::Failed(error)) = self.last.take() {
                return Err(error);
            }
        }
    }

    /// Closes the connection, and drops the data. The next call begins again with the same cache.
    pub(crate) fn stop(&mut self) {
        self.last = None;
        self.running.stop();
    }

    /// Takes the last step with an event, what it means to a group, and the data after it.
    pub(crate) fn take_told(&mut self) -> Option<((Step, News), Option<&Data>)> {
        let step = self.last.take()?;
        let news = self.running.router.take_news();
        Some(((step, news), self.running.router.data()))
    }

    /// Runs until a step has an event.
    pub(crate) fn poll(&mut self, cx: &mut Context<'_>) -> Poll<()> {
        self.running.poll(cx).map(|step| {
            let event = self.running.router.event(&step);
            if let (Some(log), Some(event)) = (&self.running.log, event) {
                event.log(log);
            }
            self.last = Some(step);
        })
    }
}

impl<S> fmt::Debug for AsyncClient<S> {
    fn fmt(&self, f: &mut fmt::Formatter<'_>) -> fmt::Result {
        let mut shown = f.debug_struct("AsyncClient");
        shown
            .field("router", &self.running.router)
            .finish_non_exhaustive()
    }
}

/// Connects by TCP to the first of the addresses that accepts it within this time, which they
/// share.
async fn dial(address: String, limit: Duration) -> io::Result<TcpStream> {
    let begun = Instant::now();
    let addresses: Vec<SocketAddr> = lookup_host(address).await?.collect();
    let mut last = ErrorKind::NotFound.into();
    for (count, address) in (1..=addresses.len()).rev().zip(&addresses) {
        let left = limit.saturating_sub(begun.elapsed());
        let share = ClientOptions::share_of(left, count);
        match timeout(share, TcpStream::connect(address)).await {
            Ok(Ok(stream)) => {
                stream.set_nodelay(true)?;
                return Ok(stream);
            }
            Ok(Err(error)) => last = error,
            Err(_) => last = ErrorKind::TimedOut.into(),
        }
    }
    Err(last)
}

/// The run of a client until its next event. Its state is in the client, so dropping this loses
/// nothing.
struct Going<'c, S>(&'c mut AsyncClient<S>);

impl<S: AsyncRead + AsyncWrite + Unpin> Future for Going<'_, S> {
    type Output = ();

    fn poll(mut self: Pin<&mut Self>, cx: &mut Context<'_>) -> Poll<()> {
        self.0.poll(cx)
    }
}

#[cfg(test)]
mod tests {
    use super::dial;
    use std::time::Duration;
    use tokio::net::TcpListener;

    /// A client's connection sends each query without Nagle's delay.
    #[tokio::test]
    async fn a_connection_without_delay() {
        let listener = TcpListener::bind("127.0.0.1:0").await.unwrap();
        let address = listener.local_addr().unwrap().to_string();
        let stream = dial(address, Duration::from_secs(30)).await.unwrap();
        assert!(stream.nodelay().unwrap());
    }
}
