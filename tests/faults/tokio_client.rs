//! A client over the crate for tokio that counts what it has allocated (`counting.rs`), which
//! `run.py` builds: prints the lines of `rtr_diff` for what changes.
//!
//! usage: tokio_client [--tls IDENTITY] HOST:PORT --version N
//!
//! If it is built for TLS, it takes that (`secured.rs`).

mod counting;
#[cfg(feature = "tls")]
mod secured;

use counting::{pause, Counter};
use rtr_wire::{change_line, ClientOptions, Event};
#[cfg(not(feature = "tls"))]
use rtr_wire_tokio::AsyncClient;
use std::error::Error;
use std::time::Duration;

#[tokio::main(worker_threads = 2)]
async fn main() -> Result<(), Box<dyn Error>> {
    let skipped = if cfg!(feature = "tls") { 2 } else { 0 };
    let words: Vec<String> = std::env::args().skip(skipped).collect();
    let mut options = ClientOptions {
        version: words[3].parse()?,
        ..ClientOptions::default()
    };
    if let Some(milliseconds) = pause() {
        options.pause = Duration::from_millis(milliseconds);
    }
    let mut counter = Counter::new();
    #[cfg(not(feature = "tls"))]
    let mut client = AsyncClient::tcp(words[1].as_str(), options);
    #[cfg(feature = "tls")]
    let mut client = secured::async_client(&words[0], &words[1], options)?;
    loop {
        let mut has_failed = false;
        match client.next().await {
            Event::Data { changes, .. } | Event::Dropped { changes } => {
                for unit in changes.units() {
                    println!("{}", change_line(&unit).unwrap_or_default());
                }
            }
            Event::Failed(error) => {
                eprintln!("{error}");
                counter.ended();
                has_failed = true;
            }
            _ => {}
        }
        if has_failed && pause().is_some() {
            client.ask_now();
        }
    }
}
