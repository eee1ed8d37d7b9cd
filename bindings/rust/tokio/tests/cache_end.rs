//! A server plays each scene of a cache (`tests/transcripts` of the repository), except those in
//! which a cache forgets: a server forgets only to limit its memory, which other tests fill.

mod ends;
#[path = "../../src/scenes.rs"]
mod scenes;

use ends::{runtime, Shared, Wire, World};
use rtr_wire::{Data, ServerOptions};
use rtr_wire_tokio::AsyncServer;
use scenes::{answer, bytes_of, each_line, play};
use std::future::Future;
use std::net::SocketAddr;
use std::pin::Pin;
use std::sync::Arc;
use std::time::Duration;
use tokio::io::{AsyncRead, AsyncWrite};
use tokio::runtime::Runtime;
use tokio::time::{sleep_until, timeout_at, Instant};

type Serving = Pin<Box<dyn Future<Output = ()>>>;

/// A server, as an end of a connection (`tests/joined`).
struct CacheEnd {
    options: ServerOptions,
    server: Option<AsyncServer>,
    serving: Option<Serving>,
    /// Another connection, beyond the limit.
    other: Option<Serving>,
    world: Shared,
    runtime: Runtime,
}

impl CacheEnd {
    fn new() -> CacheEnd {
        let runtime = runtime();
        CacheEnd {
            options: ServerOptions {
                connections: 1,
                ..ServerOptions::default()
            },
            server: None,
            serving: None,
            other: None,
            world: runtime.block_on(async { World::new("cache") }),
            runtime,
        }
    }

    fn set(&mut self, name: &str, value: u64) {
        let (options, span) = (&mut self.options, Duration::from_millis(value));
        match name {
            "usual" => {}
            "first-limit" => options.first_query = span,
            "idle-limit" => options.idle = span,
            "pause" => options.notify = span,
            "refuses" => options.refuse = true,
            _ => panic!("no setting {name}"),
        }
    }

    /// The server, whose time begins by the clock of the runtime, not by the system's.
    fn server(&mut self) -> AsyncServer {
        let _clock = self.runtime.enter();
        let options = self.options.clone();
        let server = self.server.get_or_insert_with(|| AsyncServer::new(options));
        server.clone()
    }

    fn serve(&mut self, stream: impl AsyncRead + AsyncWrite + Unpin + 'static) -> Serving {
        let server = self.server();
        let from = SocketAddr::from(([192, 0, 2, 1], 323));
        Box::pin(async move { server.serve_connection(stream, from).await })
    }

    /// Advances the clock to this time.
    fn pass(&mut self, time: u64) {
        let (world, serving) = (&self.world, &mut self.serving);
        self.runtime.block_on(async {
            let until = world.lock().unwrap().at(time);
            if let Some(waited) = serving {
                if timeout_at(until, waited).await.is_ok() {
                    *serving = None;
                }
            }
            sleep_until(until).await;
        });
    }

    fn connects(&mut self, is_beyond: bool) {
        self.other = None;
        if is_beyond {
            let (stream, other) = tokio::io::duplex(64);
            let mut serving = self.serve(stream);
            self.runtime.block_on(async {
                assert!(timeout_at(Instant::now(), &mut serving).await.is_err());
            });
            self.other = Some(Box::pin(async move {
                serving.await;
                drop(other);
            }));
        }
        self.world.lock().unwrap().opens();
        self.serving = Some(self.serve(Wire(Arc::clone(&self.world))));
    }

    /// Carries out a step of the router or the data.
    fn take_step(&mut self, step: &str, words: &[&str]) {
        match (step, words) {
            ("router", ["connects", rest @ ..]) => self.connects(!rest.is_empty()),
            ("data", ["{", bytes @ .., "}"]) => {
                let data = Data::parse(&bytes_of(bytes)).expect("data");
                let present = self.server().end().map(|end| end.session);
                if present.map_or(false, |session| session != data.end().session) {
                    self.server().change_session();
                }
                assert_eq!(self.server().update(data), Ok(true));
            }
            ("router" | "router>", words) => self.world.lock().unwrap().take_step(step, words),
            _ => panic!("no step: {step} {words:?}"),
        }
    }

    /// Carries out a line, and returns the answer, if it has a time: when the server wakes isn't
    /// known.
    fn line(&mut self, words: &[&str]) -> Option<String> {
        match words {
            ["scene", ..] => *self = CacheEnd::new(),
            ["cache", name, value @ ..] => {
                let value = value.first().map_or(0, |value| value.parse().unwrap());
                self.set(name, value);
            }
            ["at", time] => self.pass(time.parse().unwrap()),
            [time, step, words @ ..] => {
                let time = time.parse().unwrap();
                self.pass(time);
                self.take_step(step, words);
                self.pass(time);
            }
            _ => panic!("no step: {words:?}"),
        }
        if matches!(words[0], "scene" | "cache") {
            return None;
        }
        Some(answer(&mut self.world.lock().unwrap().steps, u64::MAX))
    }
}

#[test]
fn transcripts_of_a_cache() {
    play(&["cache", "--without", "forgets"], "joined");
}

/// An end, if the environment names a file for its answers.
#[test]
fn joined() {
    let mut end = CacheEnd::new();
    each_line(|words| end.line(words));
}
