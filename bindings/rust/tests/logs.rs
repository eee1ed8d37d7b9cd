//! The log lines of a client and a cache.
#![cfg(feature = "std")]

mod peers;

use peers::*;
use rtr_wire::*;
use std::fmt::Write;
use std::sync::{Arc, Mutex};

/// The lines of a log, without addresses.
#[derive(Clone, Default)]
struct Lines(Arc<Mutex<Vec<String>>>);

impl Lines {
    fn add(&self, level: LogLevel, message: &str, fields: &LogFields<'_>) {
        let mut line = format!("{level:?} {message}");
        for (name, value) in fields {
            if !["client", "address"].contains(name) {
                write!(line, " {name}={value}").unwrap();
            }
        }
        self.0.lock().unwrap().push(line);
    }

    /// Checks that exactly these lines are logged.
    fn are(&self, wanted: &[&str]) {
        let are = holds(|| *self.0.lock().unwrap() == wanted);
        assert!(are, "{:#?}", self.0.lock().unwrap());
    }
}

#[test]
fn both_ends() {
    let _alone = alone();
    let (ours, theirs) = (Lines::default(), Lines::default());
    let (to_ours, to_theirs) = (ours.clone(), theirs.clone());
    let server = Server::logging(ServerOptions::default(), move |level, message, fields| {
        to_theirs.add(level, message, fields);
    });
    server.update(data(1)).unwrap();
    let address = server.listen("127.0.0.1:0").unwrap();
    let options = ClientOptions {
        version: 2,
        ..ClientOptions::default()
    };
    let client = Client::new(address.to_string(), options);
    let client = client.with_log(move |level, message, fields| {
        to_ours.add(level, message, fields);
    });
    assert_eq!(client.fetch().unwrap(), data(1));
    let payloads = data(1).len();
    let has = format!("Info data session=4660 serial=1 version=2 payloads={payloads}");
    let gets = format!("{has} changes={payloads}");
    ours.are(&["Debug connected", &gets]);

    let mut peer = Peer::connect(address);
    peer.send(&response(2, SESSION));
    assert!(peer.report().is_some());
    theirs.are(&[
        &has,
        "Info listening",
        "Debug connected",
        "Debug connected",
        "Info ended error=unit is not a query",
    ]);
    drop(server);
    assert!(client.fetch().is_err());
    let lines = ours.0.lock().unwrap();
    let last = lines.last().unwrap();
    assert!(last.starts_with("Warn failed error="), "{last}");
}

/// Data of serial number 0 are served, and a warning is logged.
#[test]
fn serial_zero() {
    let _alone = alone();
    let lines = Lines::default();
    let told = lines.clone();
    let server = Server::logging(ServerOptions::default(), move |level, message, fields| {
        told.add(level, message, fields);
    });
    for serial in [0, 1] {
        let data = Data::new(1, SESSION, serial, None).unwrap();
        assert_eq!(server.update(data), Ok(true));
    }
    lines.are(&[
        "Info data session=4660 serial=0 version=1 payloads=0",
        "Warn serial number 0: a router that lost its first answer may ask with it, and keep a \
         part of the data session=4660",
        "Info data session=4660 serial=1 version=1 payloads=0",
    ]);
}

/// A cache names the address where it listens, and that of each client.
#[test]
fn addresses() {
    let _alone = alone();
    let lines = Arc::new(Mutex::new(Vec::new()));
    let told = Arc::clone(&lines);
    let server = Server::logging(ServerOptions::default(), move |_, message, fields| {
        let (name, value) = fields[0];
        told.lock()
            .unwrap()
            .push(format!("{message} {name}={value}"));
    });
    let address = server.listen("127.0.0.1:0").unwrap();
    let mut peer = Peer::connect(address);
    let client = peer.stream.get_ref().local_addr().unwrap();
    peer.send(&response(2, SESSION));
    assert!(peer.report().is_some());
    let wanted = [
        format!("listening address={address}"),
        format!("connected client={client}"),
        format!("ended client={client}"),
    ];
    assert!(holds(|| *lines.lock().unwrap() == wanted), "{lines:?}");
}
