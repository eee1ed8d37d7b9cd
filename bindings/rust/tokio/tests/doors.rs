//! Which clients a server serves, refuses and leaves waiting, and how long it waits for the last
//! ones (`docs/SESSIONS.md`, "The cache"). Where it can, the clock stands while something is done.

#[path = "../../tests/peers/mod.rs"]
mod peers;

use peers::{answer, data, milliseconds, prefix, reset_query};
use rtr_wire::{ErrorCode, ServerError, ServerOptions, Unit};
use rtr_wire_tokio::AsyncServer;
use std::future::pending;
use std::io::{self, ErrorKind};
use std::net::SocketAddr;
use std::pin::Pin;
use std::sync::mpsc::{channel, Receiver};
use std::sync::Mutex;
use std::task::{Context, Poll};
use std::time::Duration;
use tokio::io::{duplex, AsyncRead, AsyncReadExt, AsyncWrite, AsyncWriteExt};
use tokio::io::{BufStream, DuplexStream, ReadBuf};
use tokio::net::{TcpListener, TcpStream};
use tokio::task::JoinHandle;
use tokio::time::{sleep, timeout, Instant};

/// A server with data for this many clients, and the texts of why it ended connections.
fn telling(connections: usize) -> (AsyncServer, Receiver<String>) {
    let (sender, endings) = channel();
    let sender = Mutex::new(sender);
    let options = ServerOptions {
        connections,
        ..ServerOptions::default()
    };
    let server = AsyncServer::telling(options, move |_, error: &ServerError| {
        let _ = sender.lock().unwrap().send(error.to_string());
    });
    assert_eq!(server.update(data(1)), Ok(true));
    (server, endings)
}

fn from() -> SocketAddr {
    SocketAddr::from(([192, 0, 2, 1], 323))
}

/// A client of a task that serves it.
fn connect(server: &AsyncServer) -> (DuplexStream, JoinHandle<()>) {
    let (mine, other) = duplex(1024);
    let server = server.clone();
    let serving = tokio::spawn(async move { server.serve_connection(other, from()).await });
    (mine, serving)
}

/// Checks that a client asks for all data and gets them.
async fn is_served(client: &mut (impl AsyncReadExt + AsyncWriteExt + Unpin)) {
    client.write_all(&reset_query(2)).await.unwrap();
    let expected = answer(&data(1), 2);
    let mut came = vec![0; expected.len()];
    client.read_exact(&mut came).await.unwrap();
    assert_eq!(came, expected);
}

/// The code of the report that comes, after which nothing comes.
async fn report(client: &mut (impl AsyncReadExt + Unpin)) -> ErrorCode {
    let mut came = Vec::new();
    client.read_to_end(&mut came).await.unwrap();
    match Unit::first(&came) {
        Ok((Unit::ErrorReport(report), [])) => report.code,
        other => panic!("{other:?}"),
    }
}

/// A client that is served, and 64 that are refused, at a server for one.
async fn full(server: &AsyncServer) -> (DuplexStream, Vec<DuplexStream>) {
    let (mut first, _) = connect(server);
    is_served(&mut first).await;
    let mut refused: Vec<_> = (0..64).map(|_| connect(server).0).collect();
    for client in &mut refused {
        assert_eq!(report(client).await, ErrorCode::INTERNAL_ERROR);
    }
    (first, refused)
}

/// A listener leaves clients waiting while the server is full, and accepts one when a connection
/// was closed, also one that the program accepted.
#[tokio::test]
async fn a_listener_that_waits() {
    let (server, _endings) = telling(1);
    let (first, mut refused) = full(&server).await;
    let listener = TcpListener::bind("127.0.0.1:0").await.unwrap();
    let address = listener.local_addr().unwrap();
    let serving = server.clone();
    let listening = tokio::spawn(async move { serving.serve(listener).await });
    let mut waiting = TcpStream::connect(address).await.unwrap();
    let read = timeout(milliseconds(500), waiting.read_u8()).await;
    assert!(read.is_err(), "it isn't accepted");
    drop(refused.pop());
    let code = timeout(peers::PATIENCE, report(&mut waiting)).await;
    assert_eq!(code.unwrap(), ErrorCode::INTERNAL_ERROR);

    let mut waiting = TcpStream::connect(address).await.unwrap();
    let read = timeout(milliseconds(500), waiting.read_u8()).await;
    assert!(read.is_err(), "it isn't accepted");
    drop(first);
    timeout(peers::PATIENCE, is_served(&mut waiting))
        .await
        .expect("it is served");
    assert_eq!(server.clients(), 1);
    server.stop();
    listening.await.unwrap().unwrap();
}

/// A future that serves closes its connections when it is dropped.
#[tokio::test]
async fn a_listener_that_is_dropped() {
    let (server, _endings) = telling(1);
    let listener = TcpListener::bind("127.0.0.1:0").await.unwrap();
    let address = listener.local_addr().unwrap();
    let serving = server.clone();
    let listening = tokio::spawn(async move { serving.serve(listener).await });
    let mut client = TcpStream::connect(address).await.unwrap();
    is_served(&mut client).await;
    listening.abort();
    let read = timeout(peers::PATIENCE, client.read(&mut [0])).await;
    assert_eq!(read.expect("it is closed").unwrap(), 0);
    assert_eq!(server.clients(), 0);
}

/// A connection that a listener prepares has the time of a first query, by default 30 seconds, and
/// no Nagle delay.
#[tokio::test(start_paused = true)]
async fn a_connection_that_is_prepared() {
    let (server, endings) = telling(1);
    let listener = TcpListener::bind("127.0.0.1:0").await.unwrap();
    let address = listener.local_addr().unwrap();
    let serving = server.clone();
    let (sender, prepared) = channel();
    let listening = tokio::spawn(async move {
        let ready = |stream: TcpStream| {
            sender.send((stream.nodelay(), Instant::now())).unwrap();
            async move {
                pending::<()>().await;
                Ok(stream)
            }
        };
        serving.serve_with(listener, ready).await
    });
    let mut client = TcpStream::connect(address).await.unwrap();
    assert_eq!(client.read(&mut [0]).await.unwrap(), 0);
    let (has_no_delay, began) = prepared.try_recv().unwrap();
    assert!(has_no_delay.unwrap());
    let time = began.elapsed();
    assert!((30_000..30_010).contains(&time.as_millis()), "{time:?}");
    assert_eq!(endings.try_recv().as_deref(), Ok("the router is too slow"));
    server.stop();
    listening.await.unwrap().unwrap();
}

/// A connection that a program accepted is closed without a report if too many are refused.
#[tokio::test(start_paused = true)]
async fn connections_that_are_handed_over() {
    let (server, endings) = telling(1);
    let (_one, mut refused) = full(&server).await;
    let (mut client, serving) = connect(&server);
    serving.await.unwrap();
    assert_eq!(client.read(&mut [0]).await.unwrap(), 0);
    for _ in 0..=64 {
        assert_eq!(endings.try_recv().as_deref(), Ok("too many connections"));
    }
    assert!(endings.try_recv().is_err());
    assert_eq!(server.clients(), 1);
    drop(refused.pop());
    sleep(milliseconds(1)).await;
    assert_eq!(
        report(&mut connect(&server).0).await,
        ErrorCode::INTERNAL_ERROR
    );
}

/// A client that ended with a report has 10 seconds to close, and counts until then.
#[tokio::test(start_paused = true)]
async fn a_client_that_lingers() {
    let (server, endings) = telling(1);
    let (mut client, serving) = connect(&server);
    client.write_all(&prefix(1, 7)).await.unwrap();
    let began = Instant::now();
    assert_eq!(report(&mut client).await, ErrorCode::INVALID_REQUEST);
    sleep(Duration::from_secs(9)).await;
    client
        .write_all(&reset_query(2))
        .await
        .expect("it reads on");
    assert_eq!(server.clients(), 1);
    serving.await.unwrap();
    let lingers = began.elapsed();
    assert!(
        (10_000..10_010).contains(&lingers.as_millis()),
        "{lingers:?}"
    );
    assert!(client.write_all(&reset_query(2)).await.is_err());
    assert_eq!(server.clients(), 0);
    assert_eq!(endings.try_recv().as_deref(), Ok("unit is not a query"));
    assert!(endings.try_recv().is_err());
}

/// A report that a stream holds reaches a client that has closed; one that doesn't read has 10
/// seconds.
#[tokio::test(start_paused = true)]
async fn a_report_that_is_held() {
    for reads in [true, false] {
        let (server, _endings) = telling(1);
        let (mut client, other) = duplex(16);
        let held = BufStream::new(other);
        let serving = tokio::spawn(async move { server.serve_connection(held, from()).await });
        client.write_all(&[2, 2]).await.unwrap();
        client.shutdown().await.unwrap();
        let began = Instant::now();
        if reads {
            assert_eq!(report(&mut client).await, ErrorCode::CORRUPT_DATA);
        }
        serving.await.unwrap();
        let most = if reads { 0..10 } else { 10_000..10_010 };
        assert!(
            most.contains(&began.elapsed().as_millis()),
            "{:?}",
            began.elapsed()
        );
    }
}

/// A stream that takes no bytes, or takes them and can't be flushed, and how often it did that.
struct Failing {
    stream: DuplexStream,
    takes: bool,
    count: u32,
}

impl Failing {
    /// Fails the test if it goes on for long.
    fn fails(&mut self) {
        self.count += 1;
        assert!(self.count < 10, "nobody notices");
    }
}

impl AsyncRead for Failing {
    fn poll_read(
        mut self: Pin<&mut Self>,
        cx: &mut Context<'_>,
        buffer: &mut ReadBuf<'_>,
    ) -> Poll<io::Result<()>> {
        Pin::new(&mut self.stream).poll_read(cx, buffer)
    }
}

impl AsyncWrite for Failing {
    fn poll_write(
        mut self: Pin<&mut Self>,
        _: &mut Context<'_>,
        bytes: &[u8],
    ) -> Poll<io::Result<usize>> {
        if self.takes {
            return Poll::Ready(Ok(bytes.len()));
        }
        self.fails();
        Poll::Ready(Ok(0))
    }

    fn poll_flush(mut self: Pin<&mut Self>, _: &mut Context<'_>) -> Poll<io::Result<()>> {
        self.fails();
        Poll::Ready(Err(ErrorKind::BrokenPipe.into()))
    }

    fn poll_shutdown(self: Pin<&mut Self>, _: &mut Context<'_>) -> Poll<io::Result<()>> {
        Poll::Ready(Ok(()))
    }
}

/// A stream that fails to write or to flush ends its connection once, for that reason.
#[tokio::test(start_paused = true)]
async fn streams_that_fail() {
    for (takes, kind) in [(false, ErrorKind::WriteZero), (true, ErrorKind::BrokenPipe)] {
        let (server, endings) = telling(1);
        let (mut client, stream) = duplex(1024);
        client.write_all(&reset_query(2)).await.unwrap();
        let (count, error) = (0, io::Error::from(kind));
        let failing = Failing {
            stream,
            takes,
            count,
        };
        server.serve_connection(failing, from()).await;
        assert_eq!(endings.try_recv(), Ok(error.to_string()));
        assert!(endings.try_recv().is_err());
        assert_eq!(server.clients(), 0);
    }
}
