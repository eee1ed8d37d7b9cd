//! Caches on the loopback interface, and the files that they save.
#![allow(dead_code)]

use crate::peers::*;
use rtr_wire::*;
use std::fs::DirEntry;
use std::io;
use std::net::SocketAddr;
use std::path::{Path, PathBuf};
use std::time::Instant;

/// A server on the loopback interface, whose threads have to end with it.
pub struct Cache {
    pub server: Server,
    pub address: SocketAddr,
}

/// Limits that no client reaches, however busy the machine is.
pub fn options() -> ServerOptions {
    ServerOptions {
        first_query: PATIENCE,
        unit: PATIENCE,
        idle: PATIENCE,
        write: PATIENCE,
        response: PATIENCE,
        notify: milliseconds(300),
        ..ServerOptions::default()
    }
}

/// Limits short enough to wait for, which a client that acts at once never reaches.
pub fn limits() -> ServerOptions {
    ServerOptions {
        first_query: milliseconds(2000),
        unit: milliseconds(400),
        idle: milliseconds(500),
        write: milliseconds(2000),
        ..options()
    }
}

impl Cache {
    pub fn new(options: ServerOptions) -> Cache {
        let server = Server::new(options);
        let address = server.listen("127.0.0.1:0").expect("a port is free");
        Cache { server, address }
    }

    /// With data of serial numbers up to this one.
    pub fn with_data(serial: u32) -> Cache {
        let cache = Cache::new(options());
        for serial in 1..=serial {
            assert_eq!(cache.server.update(data(serial)), Ok(true));
        }
        cache
    }

    /// With data of these serial numbers, which it saves to this file.
    pub fn saving(file: &SavedFile, serials: std::ops::RangeInclusive<u32>) -> Cache {
        let cache = Cache::new(options());
        assert_eq!(cache.server.save_to(&file.0).unwrap(), None);
        for serial in serials {
            assert_eq!(cache.server.update(data(serial)), Ok(true));
        }
        cache
    }

    pub fn client(&self) -> Peer {
        Peer::connect(self.address)
    }

    /// Checks that the cache serves another client.
    pub fn serves(&self, serial: u32) {
        let mut client = self.client();
        client.send(&reset_query(2));
        assert_eq!(client.response(), data(serial).as_bytes());
    }
}

impl Drop for Cache {
    fn drop(&mut self) {
        let began = Instant::now();
        self.server.stop();
        assert!(began.elapsed() < LATE, "the server stops late");
        assert_eq!(self.server.clients(), 0);
        assert!(holds(|| threads("rtr ") == 0), "threads are left");
    }
}

/// A folder of its own for the file of a cache, which is removed with all that is in it.
pub struct SavedFile(pub PathBuf);

impl SavedFile {
    pub fn new(name: &str) -> SavedFile {
        let name = format!("rtr-{name}-{}", std::process::id());
        let folder = std::env::temp_dir().join(name);
        std::fs::create_dir(&folder).unwrap();
        SavedFile(folder.join("kept"))
    }

    pub fn folder(&self) -> &Path {
        self.0.parent().unwrap()
    }

    /// The names in the folder.
    pub fn names(&self) -> Vec<String> {
        let files = std::fs::read_dir(self.folder()).unwrap();
        let name = |file: io::Result<DirEntry>| file.unwrap().file_name().into_string().unwrap();
        let mut names: Vec<String> = files.map(name).collect();
        names.sort();
        names
    }
}

impl Drop for SavedFile {
    fn drop(&mut self) {
        std::fs::remove_dir_all(self.folder()).unwrap();
    }
}

/// A client that has data of these serial numbers gets the changes to the present data, in the
/// order of payloads (RFC 8210 section 8.2), and at any other serial number a cache reset (section
/// 8.3).
pub fn knows(cache: &Cache, version: u8, known: std::ops::RangeInclusive<u32>) {
    let mut client = cache.client();
    let present = *known.end();
    let new = data(present).for_version(version).unwrap();
    for serial in known.clone() {
        client.send(&serial_query(version, SESSION, serial));
        let old = data(serial).for_version(version).unwrap();
        let changes = old.delta_to(&new).unwrap();
        assert_eq!(client.response(), changes.as_bytes());
        assert!(changes.is_empty() || serial != present);
    }
    for (session, serial) in [
        (SESSION, known.start() - 1),
        (SESSION, present + 1),
        (1, present),
    ] {
        client.send(&serial_query(version, session, serial));
        let reset = Unit::CacheReset(CacheReset { version });
        assert_eq!(client.unit(), Some(reset));
    }
}
