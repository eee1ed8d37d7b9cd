//! A cache whose answers a test writes, and a client's options beside it.
#![allow(dead_code)]

use crate::peers::*;
use rtr_wire::*;
use std::net::{SocketAddr, TcpListener};
use std::time::{Duration, Instant};

/// A cache whose answers a test writes.
pub struct Played {
    listener: TcpListener,
}

impl Played {
    pub fn new() -> Played {
        let listener = TcpListener::bind("127.0.0.1:0").expect("a port is free");
        listener.set_nonblocking(true).unwrap();
        Played { listener }
    }

    pub fn address(&self) -> SocketAddr {
        self.listener.local_addr().unwrap()
    }

    /// The next connection, if one comes in this time.
    pub fn within(&self, time: Duration) -> Option<Peer> {
        let began = Instant::now();
        while began.elapsed() < time {
            if let Ok((stream, _)) = self.listener.accept() {
                stream.set_nonblocking(false).unwrap();
                return Some(Peer::of(stream));
            }
            std::thread::sleep(milliseconds(1));
        }
        None
    }

    pub fn accept(&self) -> Peer {
        self.within(PATIENCE).expect("the client connects")
    }

    /// Accepts a connection, and expects this query.
    pub fn asked(&self, query: &[u8]) -> Peer {
        let mut peer = self.accept();
        peer.expect(query);
        peer
    }
}

impl Peer {
    /// Expects these bytes.
    pub fn expect(&mut self, bytes: &[u8]) {
        let unit = self.unit().expect("the client is there");
        let wanted = Unit::first(bytes).unwrap().0.into_owned();
        assert_eq!(unit, wanted);
    }
}

pub fn options() -> ClientOptions {
    ClientOptions {
        version: 2,
        dial: PATIENCE,
        response: PATIENCE,
        pause: milliseconds(5),
        retry: Some(milliseconds(20)),
        ..ClientOptions::default()
    }
}
