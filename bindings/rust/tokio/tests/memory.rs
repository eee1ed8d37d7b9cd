//! The memory of a server whose clients have gone. It is the only test of its process, so that no
//! other test allocates.
#![deny(unsafe_op_in_unsafe_fn)]

#[path = "../../tests/peers/mod.rs"]
mod peers;

use peers::{answer, data, milliseconds, reset_query, PATIENCE};
use rtr_wire::ServerOptions;
use rtr_wire_tokio::AsyncServer;
use std::alloc::{GlobalAlloc, Layout, System};
use std::net::SocketAddr;
use std::sync::atomic::{AtomicUsize, Ordering};
use tokio::io::{AsyncReadExt, AsyncWriteExt};
use tokio::net::{TcpListener, TcpStream};
use tokio::time::{sleep, timeout};

/// The system's allocator with a count of allocated bytes.
struct Counted;

static HELD: AtomicUsize = AtomicUsize::new(0);

// SAFETY: the system's allocator does all the work.
unsafe impl GlobalAlloc for Counted {
    unsafe fn alloc(&self, layout: Layout) -> *mut u8 {
        HELD.fetch_add(layout.size(), Ordering::Relaxed);
        // SAFETY: as the caller promises.
        unsafe { System.alloc(layout) }
    }

    unsafe fn dealloc(&self, pointer: *mut u8, layout: Layout) {
        HELD.fetch_sub(layout.size(), Ordering::Relaxed);
        // SAFETY: as the caller promises.
        unsafe { System.dealloc(pointer, layout) }
    }
}

#[global_allocator]
static ALLOCATOR: Counted = Counted;

/// Serves this many clients, one after the other.
async fn serve(server: &AsyncServer, address: SocketAddr, count: usize) {
    let mut came = answer(&data(1), 2);
    for _ in 0..count {
        let mut client = TcpStream::connect(address).await.unwrap();
        client.write_all(&reset_query(2)).await.unwrap();
        client.read_exact(&mut came).await.unwrap();
    }
    while server.clients() > 0 {
        sleep(milliseconds(1)).await;
    }
}

/// Nothing is kept of clients that have gone, while the server goes on.
#[tokio::test]
async fn clients_that_have_gone() {
    const MORE: usize = 200;
    let server = AsyncServer::new(ServerOptions::default());
    assert_eq!(server.update(data(1)), Ok(true));
    let listener = TcpListener::bind("127.0.0.1:0").await.unwrap();
    let address = listener.local_addr().unwrap();
    let serving = server.clone();
    let listening = tokio::spawn(async move { serving.serve(listener).await });
    serve(&server, address, 10).await;
    let before = HELD.load(Ordering::Relaxed);
    serve(&server, address, MORE).await;
    // A task has some hundred bytes at least.
    let few = async {
        while HELD.load(Ordering::Relaxed) > before + 100 * MORE {
            sleep(milliseconds(1)).await;
        }
    };
    let is_few = timeout(PATIENCE, few).await.is_ok();
    assert!(is_few, "{} bytes", HELD.load(Ordering::Relaxed) - before);
    server.stop();
    listening.await.unwrap().unwrap();
}
