//! OpenSSL's program as a peer that renegotiates, in version 1.2 of TLS.
#![allow(dead_code)]

use crate::peers::PATIENCE;
use std::io::{Read, Write};
use std::net::SocketAddr;
use std::path::PathBuf;
use std::process::{Child, Command, Stdio};
use std::sync::{Arc, Mutex};
use std::thread::{sleep, spawn};
use std::time::{Duration, Instant};

/// The program while it runs, and what it wrote.
pub struct OpenSsl {
    child: Child,
    output: Arc<Mutex<Vec<u8>>>,
}

impl Drop for OpenSsl {
    fn drop(&mut self) {
        let _ = self.child.kill();
        let _ = self.child.wait();
    }
}

impl OpenSsl {
    /// A cache with these files. None where the program isn't here.
    pub fn cache(files: &[PathBuf; 3]) -> Option<(OpenSsl, SocketAddr)> {
        let cache = OpenSsl::new(&["s_server", "-accept", "127.0.0.1:0"], files)?;
        let mut line = String::new();
        while !line.contains('\n') {
            line = String::from_utf8_lossy(&cache.wait(b"ACCEPT ")).into_owned();
        }
        let address = line.lines().next().unwrap().parse().unwrap();
        Some((cache, address))
    }

    /// A router that connects there.
    pub fn router(address: SocketAddr, files: &[PathBuf; 3]) -> Option<OpenSsl> {
        let address = address.to_string();
        OpenSsl::new(&["s_client", "-connect", &address], files)
    }

    fn new(words: &[&str], [certificate, key, authority]: &[PathBuf; 3]) -> Option<OpenSsl> {
        let mut command = Command::new("openssl");
        command.args(words).arg("-tls1_2");
        command.arg("-cert").arg(certificate).arg("-key").arg(key);
        command.arg("-CAfile").arg(authority);
        command.stdin(Stdio::piped()).stdout(Stdio::piped());
        let mut child = match command.stderr(Stdio::null()).spawn() {
            Ok(child) => child,
            Err(error) => {
                eprintln!("no openssl here: {error}");
                return None;
            }
        };
        let output = Arc::new(Mutex::new(Vec::new()));
        let (to, mut from) = (Arc::clone(&output), child.stdout.take().unwrap());
        spawn(move || {
            let mut bytes = [0; 4096];
            while let Ok(count @ 1..) = from.read(&mut bytes) {
                to.lock().unwrap().extend_from_slice(&bytes[..count]);
            }
        });
        Some(OpenSsl { child, output })
    }

    /// Has it send these bytes, or do what they command.
    pub fn takes(&mut self, bytes: &[u8]) {
        let _ = self.child.stdin.as_mut().unwrap().write_all(bytes);
    }

    /// Waits until it has written these bytes, and answers those behind them.
    pub fn wait(&self, wanted: &[u8]) -> Vec<u8> {
        let began = Instant::now();
        while began.elapsed() < PATIENCE {
            let output = self.output.lock().unwrap().clone();
            let mut places = output.windows(wanted.len());
            if let Some(place) = places.position(|bytes| bytes == wanted) {
                return output[place + wanted.len()..].to_vec();
            }
            sleep(Duration::from_millis(5));
        }
        panic!("{wanted:?} never came");
    }

    /// Reports whether the program ends.
    pub fn ends(&mut self) -> bool {
        let began = Instant::now();
        while began.elapsed() < PATIENCE {
            if matches!(self.child.try_wait(), Ok(Some(_))) {
                return true;
            }
            sleep(Duration::from_millis(5));
        }
        false
    }
}
