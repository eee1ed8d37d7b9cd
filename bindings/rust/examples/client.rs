//! A router's end: asks a cache for its data, and prints what changes as it comes (RFC 8210).
//!
//! usage: client (HOST:PORT | (--prefer HOST:PORT)..) [--version 0|1|2] [--once] [--json]
//!
//! With `--prefer`, up to 16 times, it uses the data of the first of these caches that answers
//! (section 10), and prints the changes from one cache's data to another's.
//!
//! The lines are those of `rtr_diff`, with `--json` those of `rtr_diff --json`. On standard error
//! it prints a line on its data at each end of data, and on each failure. With `--once` it ends
//! after all data have come.
//!
//! Exits with status 0 if that succeeds, or without it at SIGINT or SIGTERM, 1 if it or writing
//! fails, 2 for wrong arguments.

use rtr_wire::{
    change_json, change_line, follow, Client, ClientOptions, Data, Event, Group, UnitRef,
};
use std::io::{self, Write};
use std::ops::ControlFlow;
use std::process::ExitCode;
use std::ptr;
use std::sync::atomic::{AtomicPtr, Ordering};
use std::sync::Arc;

struct Arguments {
    addresses: Vec<String>,
    version: u8,
    once: bool,
    json: bool,
}

/// Reports whether an address ends with a colon and the number of a port.
fn has_port(address: &str) -> bool {
    let port = address
        .rsplit_once(':')
        .map(|(_, port)| port.parse::<u16>());
    matches!(port, Some(Ok(_)))
}

fn arguments(mut words: impl Iterator<Item = String>) -> Option<Arguments> {
    let (mut addresses, mut prefers) = (Vec::new(), false);
    let (mut version, mut once, mut json) = (None, false, false);
    while let Some(word) = words.next() {
        match word.as_str() {
            "--once" => once = true,
            "--json" => json = true,
            "--version" if version.is_none() => {
                let known = 0..=ClientOptions::HIGHEST_VERSION;
                version = words.next()?.parse().ok();
                version = Some(version.filter(|number| known.contains(number))?);
            }
            "--prefer" if (prefers || addresses.is_empty()) && addresses.len() < Group::MOST => {
                prefers = true;
                addresses.push(
                    words
                        .next()
                        .filter(|address| !addresses.contains(address))?,
                );
            }
            _ if word.starts_with("--") || !addresses.is_empty() => return None,
            _ => addresses.push(word),
        }
    }
    let are_usable = !addresses.is_empty() && addresses.iter().all(|address| has_port(address));
    are_usable.then_some(Arguments {
        addresses,
        version: version.unwrap_or(ClientOptions::default().version),
        once,
        json,
    })
}

fn print<'a>(units: impl Iterator<Item = UnitRef<'a>>, as_json: bool) -> io::Result<()> {
    let mut output = io::BufWriter::new(io::stdout().lock());
    for unit in units {
        let text = if as_json {
            change_json(&unit)
        } else {
            change_line(&unit)
        };
        writeln!(output, "{}", text.unwrap_or_default())?;
    }
    output.flush()
}

fn say(data: &Data) {
    let (end, count) = (data.end(), data.len());
    let (session, serial, version) = (end.session, end.serial, end.version);
    let plural = if count == 1 { "" } else { "s" };
    eprintln!("session {session} serial {serial} version {version}: {count} payload{plural}");
}

/// The client of the first cache, once it exists; a signal stops it. It is never freed, nor changed
/// through this pointer.
static CLIENT: AtomicPtr<Client> = AtomicPtr::new(ptr::null_mut());

mod signals {
    use super::{Ordering, CLIENT};

    const INTERRUPT: i32 = 2;
    const TERMINATE: i32 = 15;

    extern "C" {
        /// A function of the C library, on Linux and other systems with these numbers.
        fn signal(number: i32, handler: extern "C" fn(i32)) -> usize;
    }

    extern "C" fn end(_: i32) {
        // SAFETY: the pointer is null, or that of a client which is never freed.
        if let Some(client) = unsafe { CLIENT.load(Ordering::Acquire).as_ref() } {
            client.stop();
        }
    }

    pub fn catch() {
        for number in [INTERRUPT, TERMINATE] {
            // SAFETY: the handler stores an atomic and writes a byte, as a handler may.
            unsafe { signal(number, end) };
        }
    }
}

/// The line on an event of a cache, and whether it is a failure.
fn tell(address: &str, event: &Event<'_>, arguments: &Arguments) -> io::Result<bool> {
    match event {
        Event::Data { data, changes, .. } => {
            say(data);
            print(changes.units(), arguments.json)?;
        }
        Event::Dropped { changes } => print(changes.units(), arguments.json)?,
        Event::Failed(error) => {
            eprintln!("{address}: {error}");
            return Ok(true);
        }
        _ => {}
    }
    Ok(false)
}

/// The client of a cache. The first one is never freed, and a signal stops it.
fn client(member: usize, arguments: &Arguments) -> Arc<Client> {
    let options = ClientOptions {
        version: arguments.version,
        ..ClientOptions::default()
    };
    let client = Arc::new(Client::new(arguments.addresses[member].as_str(), options));
    if member == 0 && !arguments.once {
        CLIENT.store(
            Arc::into_raw(Arc::clone(&client)) as *mut Client,
            Ordering::Release,
        );
        signals::catch();
    }
    client
}

/// Follows the caches until a signal comes; with `--once` until there are data, or each cache has
/// failed. Returns whether they, or writing, failed.
fn run(arguments: &Arguments) -> io::Result<bool> {
    let (addresses, once) = (&arguments.addresses, arguments.once);
    let (mut fails, mut failed) = (false, vec![false; addresses.len()]);
    let clients = |member| client(member, arguments);
    follow(addresses.len(), clients, |member, event| {
        let printed = tell(&addresses[member], &event, arguments);
        if let Err(error) = &printed {
            eprintln!("standard output: {error}");
        }
        failed[member] |= matches!(printed, Ok(true));
        fails = printed.is_err() || (once && failed.iter().all(|failed| *failed));
        if fails || (once && matches!(event, Event::Data { .. })) {
            ControlFlow::Break(())
        } else {
            ControlFlow::Continue(())
        }
    })?;
    Ok(fails)
}

#[allow(clippy::single_match_else)] // `let else` came with Rust 1.65.
fn main() -> ExitCode {
    let failed = match arguments(std::env::args().skip(1)) {
        Some(arguments) => run(&arguments),
        None => {
            eprintln!(
                "usage: client (HOST:PORT | (--prefer HOST:PORT)..) \
                 [--version 0|1|2] [--once] [--json]"
            );
            return ExitCode::from(2);
        }
    };
    match failed {
        Ok(false) => ExitCode::SUCCESS,
        Ok(true) => ExitCode::FAILURE,
        Err(error) => {
            eprintln!("thread: {error}");
            ExitCode::FAILURE
        }
    }
}
