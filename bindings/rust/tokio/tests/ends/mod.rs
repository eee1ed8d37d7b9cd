//! The other end of a connection, in memory, by a clock that stands while there is something to do
//! (`tests/joined` of the repository).

use super::scenes::{bytes_of, hex};
use std::fmt::Write;
use std::io::{self, ErrorKind};
use std::pin::Pin;
use std::sync::{Arc, Mutex};
use std::task::{Context, Poll};
use std::time::Duration;
use tokio::io::{AsyncRead, AsyncWrite, ReadBuf};
use tokio::runtime::{Builder, Runtime};
use tokio::time::Instant;

/// What the other end did with a connection, and the steps of this one.
pub struct World {
    /// The end under test: `router` or `cache`.
    name: &'static str,
    begun: Instant,
    pub steps: String,
    came: Vec<u8>,
    pub is_open: bool,
    closes: bool,
    breaks: bool,
}

pub type Shared = Arc<Mutex<World>>;

impl World {
    pub fn new(name: &'static str) -> Shared {
        Arc::new(Mutex::new(World {
            name,
            begun: Instant::now(),
            steps: String::new(),
            came: Vec::new(),
            is_open: false,
            closes: false,
            breaks: false,
        }))
    }

    /// The instant of a time of the scene.
    pub fn at(&self, time: u64) -> Instant {
        self.begun + Duration::from_millis(time)
    }

    pub fn does(&mut self, what: &str) {
        let now = self.begun.elapsed().as_millis();
        writeln!(self.steps, "{now} {what}").unwrap();
    }

    /// A connection begins.
    pub fn opens(&mut self) {
        self.came.clear();
        self.is_open = true;
        self.closes = false;
        self.breaks = false;
    }

    /// Carries out a step of the other end: of bytes, if it has those.
    pub fn take_step(&mut self, step: &str, words: &[&str]) {
        match words {
            bytes if step.ends_with('>') && self.is_open => self.came.extend(bytes_of(bytes)),
            ["closes"] => self.closes = true,
            ["breaks"] => self.breaks = true,
            _ => {}
        }
    }

    fn closed(&mut self) {
        if std::mem::take(&mut self.is_open) {
            self.does("closes");
        }
    }
}

/// This end of a connection, also of one that isn't made yet.
pub struct Wire(pub Shared);

impl Drop for Wire {
    fn drop(&mut self) {
        self.0.lock().unwrap().closed();
    }
}

impl AsyncRead for Wire {
    fn poll_read(
        self: Pin<&mut Self>,
        _: &mut Context<'_>,
        buffer: &mut ReadBuf<'_>,
    ) -> Poll<io::Result<()>> {
        let mut world = self.0.lock().unwrap();
        let count = world.came.len().min(buffer.remaining());
        let bytes: Vec<u8> = world.came.drain(..count).collect();
        match count {
            0 if world.breaks => Poll::Ready(Err(ErrorKind::ConnectionReset.into())),
            0 if !world.closes && world.is_open => Poll::Pending,
            _ => {
                buffer.put_slice(&bytes);
                Poll::Ready(Ok(()))
            }
        }
    }
}

impl AsyncWrite for Wire {
    fn poll_write(
        self: Pin<&mut Self>,
        _: &mut Context<'_>,
        bytes: &[u8],
    ) -> Poll<io::Result<usize>> {
        let mut world = self.0.lock().unwrap();
        if world.breaks {
            return Poll::Ready(Err(ErrorKind::BrokenPipe.into()));
        }
        let sent = format!("{}> {}", world.name, hex(bytes));
        world.does(&sent);
        Poll::Ready(Ok(bytes.len()))
    }

    fn poll_flush(self: Pin<&mut Self>, _: &mut Context<'_>) -> Poll<io::Result<()>> {
        Poll::Ready(Ok(()))
    }

    fn poll_shutdown(self: Pin<&mut Self>, _: &mut Context<'_>) -> Poll<io::Result<()>> {
        self.0.lock().unwrap().closed();
        Poll::Ready(Ok(()))
    }
}

/// A runtime whose clock stands while there is something to do.
pub fn runtime() -> Runtime {
    let mut runtime = Builder::new_current_thread();
    let runtime = runtime.enable_time().start_paused(true).build();
    runtime.unwrap()
}
