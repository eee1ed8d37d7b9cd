//! How long a client keeps a connection for its last bytes, by a clock that stands while there is
//! something to do.

use rtr_wire::{ClientError, ClientOptions, Event};
use rtr_wire_tokio::AsyncClient;
use std::future::pending;
use std::io::{self, ErrorKind};
use std::pin::Pin;
use std::sync::Arc;
use std::task::{Context, Poll};
use std::time::Duration;
use tokio::io::{duplex, AsyncRead, AsyncReadExt, AsyncWrite, AsyncWriteExt};
use tokio::io::{DuplexStream, ReadBuf};
use tokio::time::Instant;

/// A unit of a type that nobody knows, for which a client owes a report (RFC 8210 section 12).
const UNKNOWN: [u8; 8] = [0, 5, 0, 0, 0, 0, 0, 8];

/// The time for a report.
const LIMIT: Duration = Duration::from_millis(700);

/// A stream that from one of its writes on takes no bytes, and says so.
struct Full {
    stream: DuplexStream,
    writes: u32,
    first: u32,
}

impl AsyncRead for Full {
    fn poll_read(
        mut self: Pin<&mut Self>,
        cx: &mut Context<'_>,
        buffer: &mut ReadBuf<'_>,
    ) -> Poll<io::Result<()>> {
        Pin::new(&mut self.stream).poll_read(cx, buffer)
    }
}

impl AsyncWrite for Full {
    fn poll_write(
        mut self: Pin<&mut Self>,
        cx: &mut Context<'_>,
        bytes: &[u8],
    ) -> Poll<io::Result<usize>> {
        self.writes += 1;
        if self.writes >= self.first {
            return Poll::Ready(Ok(0));
        }
        Pin::new(&mut self.stream).poll_write(cx, bytes)
    }

    fn poll_flush(mut self: Pin<&mut Self>, cx: &mut Context<'_>) -> Poll<io::Result<()>> {
        Pin::new(&mut self.stream).poll_flush(cx)
    }

    fn poll_shutdown(mut self: Pin<&mut Self>, cx: &mut Context<'_>) -> Poll<io::Result<()>> {
        Pin::new(&mut self.stream).poll_shutdown(cx)
    }
}

/// What a cache does after a unit that is refused.
enum Then {
    Stays,
    Reads,
    Sends,
}

/// Sends a unit that is refused.
async fn cache(mut stream: DuplexStream, then: Then) {
    stream.write_all(&UNKNOWN).await.unwrap();
    match then {
        Then::Stays => pending().await,
        Then::Reads => {
            let mut came = Vec::new();
            stream.read_to_end(&mut came).await.unwrap();
        }
        Then::Sends => {
            let many = vec![0; 2 * ClientOptions::LAST_BYTES];
            let _ = stream.write_all(&many).await;
            pending::<()>().await;
        }
    }
}

/// Returns the first failure of a client whose stream takes bytes up to this write, through a
/// buffer of this size, and when it came.
async fn failure(first: u32, size: usize, then: Then) -> (String, bool, Duration) {
    let (stream, other) = duplex(size);
    let mut stream = Some(Full {
        stream,
        writes: 0,
        first,
    });
    let options = ClientOptions {
        version: 0, // there is no lower one to fall to
        report: LIMIT,
        ..ClientOptions::default()
    };
    let mut client = AsyncClient::new(options, move || {
        let dialed = stream.take().ok_or_else(|| ErrorKind::NotConnected.into());
        async { dialed }
    });
    let peer = tokio::spawn(cache(other, then));
    let begun = Instant::now();
    let (text, is_of_writing) = match client.next().await {
        Event::Failed(error) => {
            let is_of_writing =
                matches!(error, ClientError::Io(error) if error.kind() == ErrorKind::WriteZero);
            (error.to_string(), is_of_writing)
        }
        other => panic!("{other:?}"),
    };
    let time = begun.elapsed();
    peer.abort();
    (text, is_of_writing, time)
}

/// A report ends with its time limit, or before: when the cache closes, when it has sent a
/// mebibyte, or when the stream takes no bytes.
#[test]
fn times_of_reports() {
    let mut runtime = tokio::runtime::Builder::new_current_thread();
    let runtime = runtime.enable_time().start_paused(true).build().unwrap();
    let (large, whole) = (1 << 16, u32::MAX);
    for (name, first, size, then, wanted) in [
        ("it takes nothing", whole, UNKNOWN.len(), Then::Stays, LIMIT),
        ("it doesn't close", whole, large, Then::Stays, LIMIT),
        ("it closes", whole, large, Then::Reads, Duration::ZERO),
        ("it sends on", whole, large, Then::Sends, Duration::ZERO),
        ("a full stream", 2, large, Then::Stays, Duration::ZERO),
        ("no query", 1, large, Then::Stays, Duration::ZERO),
    ] {
        let (text, is_of_writing, time) = runtime.block_on(failure(first, size, then));
        assert!(
            time >= wanted && time < wanted + LIMIT / 2,
            "{name}: {time:?}"
        );
        assert_eq!(is_of_writing, name == "no query", "{name}: {text}");
    }
}

/// A stream that takes no bytes, and whose reads fail.
struct Broken;

impl AsyncRead for Broken {
    fn poll_read(
        self: Pin<&mut Self>,
        _: &mut Context<'_>,
        _: &mut ReadBuf<'_>,
    ) -> Poll<io::Result<()>> {
        Poll::Ready(Err(ErrorKind::ConnectionReset.into()))
    }
}

impl AsyncWrite for Broken {
    fn poll_write(self: Pin<&mut Self>, _: &mut Context<'_>, _: &[u8]) -> Poll<io::Result<usize>> {
        Poll::Pending
    }

    fn poll_flush(self: Pin<&mut Self>, _: &mut Context<'_>) -> Poll<io::Result<()>> {
        Poll::Pending
    }

    fn poll_shutdown(self: Pin<&mut Self>, _: &mut Context<'_>) -> Poll<io::Result<()>> {
        Poll::Pending
    }
}

/// A connection that breaks before it took the query is lost at once: the client doesn't wait until
/// it takes bytes.
#[tokio::test(start_paused = true)]
async fn a_connection_that_breaks_with_unsent_bytes() {
    let mut client = AsyncClient::new(ClientOptions::default(), || async { Ok(Broken) });
    let begun = Instant::now();
    match client.next().await {
        Event::Failed(ClientError::Io(error)) => {
            assert_eq!(error.kind(), ErrorKind::ConnectionReset);
        }
        other => panic!("{other:?}"),
    }
    assert_eq!(begun.elapsed(), Duration::ZERO);
}

/// A dial that stalls ends with its time limit, and nothing of it is left while the client waits.
#[tokio::test(start_paused = true)]
async fn a_dial_that_stalls() {
    let counted = Arc::new(());
    let dialed = Arc::clone(&counted);
    let options = ClientOptions {
        dial: LIMIT,
        ..ClientOptions::default()
    };
    let mut client = AsyncClient::<DuplexStream>::new(options, move || {
        let dialed = Arc::clone(&dialed);
        async move {
            pending::<()>().await;
            drop(dialed);
            Err(ErrorKind::TimedOut.into())
        }
    });
    let begun = Instant::now();
    assert!(matches!(client.next().await, Event::Failed(_)));
    let time = begun.elapsed();
    assert!(time >= LIMIT && time < LIMIT + LIMIT / 2, "{time:?}");
    assert_eq!(Arc::strong_count(&counted), 2, "a dial is left");
}
