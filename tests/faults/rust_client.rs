//! A client of the crate that counts what it has allocated (`counting.rs`), which `run.py` builds:
//! prints the lines of `rtr_diff` for what changes.
//!
//! usage: rust_client [--tls IDENTITY] HOST:PORT --version N
//!
//! If it is built for TLS, it takes that (`secured.rs`).

mod counting;
#[cfg(feature = "tls")]
mod secured;

use counting::{pause, Counter};
#[cfg(not(feature = "tls"))]
use rtr_wire::Client;
use rtr_wire::{change_line, ClientOptions, Event};
use std::ops::ControlFlow;
use std::time::Duration;

fn main() {
    let skipped = if cfg!(feature = "tls") { 2 } else { 0 };
    let words: Vec<String> = std::env::args().skip(skipped).collect();
    let mut options = ClientOptions {
        version: words[3].parse().unwrap(),
        ..ClientOptions::default()
    };
    if let Some(milliseconds) = pause() {
        options.pause = Duration::from_millis(milliseconds);
    }
    let mut counter = Counter::new();
    #[cfg(not(feature = "tls"))]
    let client = Client::new(words[1].as_str(), options);
    #[cfg(feature = "tls")]
    let client = secured::client(&words[0], &words[1], options).unwrap();
    client.run(|event| {
        match event {
            Event::Data { changes, .. } | Event::Dropped { changes } => {
                for unit in changes.units() {
                    println!("{}", change_line(&unit).unwrap_or_default());
                }
            }
            Event::Failed(error) => {
                eprintln!("{error}");
                counter.ended();
                if pause().is_some() {
                    client.ask_now();
                }
            }
            _ => {}
        }
        ControlFlow::Continue(())
    });
}
