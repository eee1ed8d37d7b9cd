//! The memory that hostile peers can make a client and a server use. It is the only test of its
//! program, so that no other test allocates.
#![cfg(feature = "std")]
#![deny(unsafe_op_in_unsafe_fn)]

mod peers;

use peers::*;
use rtr_wire::*;
use std::alloc::{GlobalAlloc, Layout, System};
use std::net::{SocketAddr, TcpListener, TcpStream};
use std::sync::atomic::{AtomicUsize, Ordering};
use std::time::Duration;

/// The system's allocator with a count of allocated bytes.
struct Counted;

static HELD: AtomicUsize = AtomicUsize::new(0);
static MOST: AtomicUsize = AtomicUsize::new(0);

// SAFETY: the system's allocator does all the work.
unsafe impl GlobalAlloc for Counted {
    unsafe fn alloc(&self, layout: Layout) -> *mut u8 {
        let held = HELD.fetch_add(layout.size(), Ordering::Relaxed) + layout.size();
        MOST.fetch_max(held, Ordering::Relaxed);
        // SAFETY: as the caller promises.
        unsafe { System.alloc(layout) }
    }

    unsafe fn dealloc(&self, pointer: *mut u8, layout: Layout) {
        HELD.fetch_sub(layout.size(), Ordering::Relaxed);
        // SAFETY: as the caller promises.
        unsafe { System.dealloc(pointer, layout) }
    }
}

#[global_allocator]
static ALLOCATOR: Counted = Counted;

/// The peak of allocated bytes while this runs, beyond those allocated before.
fn most(done: impl FnOnce()) -> usize {
    let before = HELD.load(Ordering::Relaxed);
    MOST.store(before, Ordering::Relaxed);
    done();
    MOST.load(Ordering::Relaxed) - before
}

/// A cache that sends the same bytes over and over after a cache response.
fn flood(bytes: &[u8], options: ClientOptions) {
    let listener = TcpListener::bind("127.0.0.1:0").expect("a port is free");
    let client = Client::new(listener.local_addr().unwrap().to_string(), options);
    std::thread::scope(|scope| {
        scope.spawn(|| {
            let mut peer = Peer::of(listener.accept().unwrap().0);
            // A connection that is dropped with a query unread is reset.
            assert!(peer.unit().is_some());
            peer.send(&[2, 3, 0, 1, 0, 0, 0, 8]);
            (0..100_000).for_each(|_| peer.try_send(bytes));
            peer.is_closed();
        });
        client.fetch().expect_err("it has no end");
    });
}

/// A connection that asks over and over, and doesn't read.
fn unread(address: SocketAddr) -> TcpStream {
    let mut client = Peer::connect(address);
    (0..40).for_each(|_| client.try_send(&reset_query(2)));
    client.is_sent_to();
    client.stream.into_inner()
}

#[test]
fn memory() {
    // A client: an answer of as many bytes as are allowed.
    const BYTES: usize = 1 << 20;
    let options = ClientOptions {
        version: 2,
        bytes: BYTES,
        ..ClientOptions::default()
    };
    let held = most(|| flood(&prefix(1, 1), options.clone()));
    assert!(BYTES / 2 < held && held < 5 * BYTES, "{held} bytes");
    // An impossible length isn't trusted.
    let held = most(|| flood(&[2, 9, 1, 0, 0xff, 0xff, 0xff, 0xff], options.clone()));
    assert!(held < BYTES / 2, "{held} bytes");
    // A server: clients that ask over and over and don't read share the data.
    let data = data_of(SESSION, 1, u16::MAX);
    let (count, length) = (64, data.as_bytes().len());
    let server = Server::new(ServerOptions {
        keep_bytes: 0,
        ..ServerOptions::default()
    });
    let address = server.listen("127.0.0.1:0").expect("a port is free");
    assert_eq!(server.update(data), Ok(true));
    let held = most(|| {
        let _clients: Vec<TcpStream> = (0..count).map(|_| unread(address)).collect();
        assert!(holds(|| server.clients() == count));
        std::thread::sleep(Duration::from_millis(200));
    });
    assert!(held < count * (8 << 10), "{held} bytes");
    // Slow routers hold at most three snapshots of fifteen.
    let before = HELD.load(Ordering::Relaxed);
    let mut slow = Vec::new();
    for serial in 2..=16 {
        slow.extend((0..3).map(|_| unread(address)));
        assert_eq!(server.update(data_of(SESSION, serial, u16::MAX)), Ok(true));
    }
    let few = || HELD.load(Ordering::Relaxed) < before + 2 * length + 15 * 3 * (8 << 10);
    assert!(
        holds(few),
        "{} bytes",
        HELD.load(Ordering::Relaxed) - before
    );
    server.stop();
}
