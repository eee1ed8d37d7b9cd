//! A server beside a system that has no descriptor left. It is the only test of its process.

#[path = "../../tests/peers/mod.rs"]
mod peers;

use peers::{answer, data, milliseconds, reset_query, Stamp, PATIENCE};
use rtr_wire::{ErrorCode, ServerOptions, Unit};
use rtr_wire_tokio::AsyncServer;
use std::fs::File;
use std::io::{self, ErrorKind};
use std::net::SocketAddr;
use std::process::Command;
use tokio::io::{AsyncReadExt, AsyncWriteExt};
use tokio::net::{TcpListener, TcpSocket, TcpStream};
use tokio::time::{sleep, timeout};

/// Lowers the limit of descriptors to this number, by util-linux's prlimit.
fn limit_descriptors(count: usize) -> io::Result<bool> {
    let process = std::process::id().to_string();
    let limit = format!("--nofile={count}:");
    let done = Command::new("prlimit")
        .args(["--pid", &process, &limit])
        .status();
    done.map(|status| status.success())
}

/// Opens files until the system has this many descriptors left.
fn leave_descriptors(count: usize) -> Vec<File> {
    let open = || File::open("/dev/null");
    let mut files: Vec<File> = std::iter::from_fn(|| open().ok()).collect();
    files.truncate(files.len() - count);
    files
}

/// Checks that a client is served that connects while no descriptor is left.
async fn is_served_later(address: SocketAddr) {
    let socket = TcpSocket::new_v4().unwrap();
    let began = Stamp::now();
    let files = leave_descriptors(0);
    let mut client = socket.connect(address).await.unwrap();
    sleep(milliseconds(300)).await;
    drop(files);
    // The system refuses it to the server, which pauses each time: else it would never sleep.
    let slept = began.slept_until(Stamp::now());
    assert!(slept > milliseconds(10), "it slept {slept:?}");
    client.write_all(&reset_query(2)).await.unwrap();
    let expected = answer(&data(1), 2);
    let mut came = vec![0; expected.len()];
    let read = timeout(PATIENCE, client.read_exact(&mut came)).await;
    read.expect("it is served").unwrap();
    assert_eq!(came, expected);
}

/// A client that takes the last descriptor gets a report instead of data, and one that comes later
/// is served once there are descriptors again.
#[tokio::test]
async fn the_last_descriptor() {
    match limit_descriptors(64) {
        Err(error) if error.kind() == ErrorKind::NotFound => {
            return eprintln!("no prlimit here: SKIPPED the_last_descriptor");
        }
        done => assert!(done.unwrap()),
    }
    let server = AsyncServer::new(ServerOptions::default());
    assert_eq!(server.update(data(1)), Ok(true));
    let listener = TcpListener::bind("127.0.0.1:0").await.unwrap();
    let address = listener.local_addr().unwrap();
    let mut client = TcpStream::connect(address).await.unwrap();
    // One that the server holds itself, and that of the client.
    let files = leave_descriptors(2);
    let serving = server.clone();
    let listening = tokio::spawn(async move { serving.serve(listener).await });
    let mut came = Vec::new();
    let read = timeout(PATIENCE, client.read_to_end(&mut came)).await;
    read.expect("it ends").unwrap();
    match Unit::first(&came) {
        Ok((Unit::ErrorReport(report), [])) => {
            assert_eq!(report.code, ErrorCode::INTERNAL_ERROR);
        }
        other => panic!("{other:?}"),
    }
    drop(files);
    is_served_later(address).await;
    server.stop();
    listening.await.unwrap().unwrap();
}
