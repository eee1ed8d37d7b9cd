//! The growing waits of clients that start together differ, by a clock that stands while there is
//! something to do.

use rtr_wire::ClientOptions;
use rtr_wire_tokio::AsyncClient;
use std::io::ErrorKind;
use std::sync::{Arc, Mutex};
use std::time::Duration;
use tokio::io::DuplexStream;
use tokio::time::{timeout, Instant};

const CLIENTS: usize = 12;
/// The wait that is measured, and its length without a random number (docs/SESSIONS.md).
const WAIT: usize = 3;
const LENGTH: Duration = Duration::from_secs(4);

/// Returns a wait of a client that can't connect.
async fn waited() -> Duration {
    let times = Arc::new(Mutex::new(Vec::new()));
    let tried = Arc::clone(&times);
    let mut client = AsyncClient::<DuplexStream>::new(ClientOptions::default(), move || {
        tried.lock().unwrap().push(Instant::now());
        async { Err(ErrorKind::ConnectionRefused.into()) }
    });
    while times.lock().unwrap().len() <= WAIT {
        let _ = timeout(Duration::from_secs(1), client.next()).await;
    }
    let times = times.lock().unwrap();
    times[WAIT] - times[WAIT - 1]
}

/// Twelve random numbers within a fifth of their range come once in a million runs.
#[test]
fn waits_differ() {
    let mut runtime = tokio::runtime::Builder::new_current_thread();
    let runtime = runtime.enable_time().start_paused(true).build().unwrap();
    let waits: Vec<Duration> = runtime.block_on(async {
        let mut waits = Vec::new();
        for _ in 0..CLIENTS {
            waits.push(waited().await);
        }
        waits
    });
    let (shortest, longest) = (waits.iter().min().unwrap(), waits.iter().max().unwrap());
    assert!(*shortest >= LENGTH / 2 && *longest <= LENGTH, "{waits:?}");
    assert!(
        longest.saturating_sub(*shortest) >= LENGTH / 10,
        "{waits:?}"
    );
}
