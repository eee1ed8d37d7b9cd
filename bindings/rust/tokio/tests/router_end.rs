//! A client plays each scene (`tests/transcripts` of the repository). Each wait for a time drops
//! what it waited for.

mod ends;
#[path = "../../src/scenes.rs"]
mod scenes;

use ends::{runtime, Shared, Wire, World};
use rtr_wire::{ClientError, ClientOptions, Event};
use rtr_wire_tokio::AsyncClient;
use scenes::{answer, each_line, hex, play};
use std::io::{self, ErrorKind};
use std::sync::{Arc, Mutex};
use std::time::Duration;
use tokio::runtime::Runtime;
use tokio::sync::oneshot;
use tokio::time::timeout_at;

/// What is waited for while a connection is made.
type Dialing = Arc<Mutex<Option<oneshot::Sender<io::Result<()>>>>>;

/// A client, as an end of a connection (`tests/joined`).
struct RouterEnd {
    options: ClientOptions,
    chance: u16,
    client: Option<AsyncClient<Wire>>,
    dialing: Dialing,
    world: Shared,
    runtime: Runtime,
}

impl RouterEnd {
    fn new() -> RouterEnd {
        let runtime = runtime();
        RouterEnd {
            options: ClientOptions::default(),
            chance: 0,
            client: None,
            dialing: Dialing::default(),
            world: runtime.block_on(async { World::new("router") }),
            runtime,
        }
    }

    fn set(&mut self, name: &str, value: u64) {
        let span = Duration::from_millis(value);
        match name {
            "version" => self.options.version = value.try_into().unwrap(),
            "chance" => self.chance = value.try_into().unwrap(),
            "pause" => self.options.pause = span,
            "connect-limit" => self.options.dial = span,
            "response-limit" => self.options.response = span,
            "refresh" => self.options.refresh = Some(span),
            "retry" => self.options.retry = Some(span),
            "expire" => self.options.expire = Some(span),
            "most-units" => self.options.units = value,
            "most-bytes" => self.options.bytes = value.try_into().unwrap(),
            _ => panic!("no setting {name}"),
        }
    }

    fn begin(&self) -> AsyncClient<Wire> {
        let (world, dialing) = (Arc::clone(&self.world), Arc::clone(&self.dialing));
        AsyncClient::with_random(self.options.clone(), self.chance, move || {
            let (sender, outcome) = oneshot::channel();
            *dialing.lock().unwrap() = Some(sender);
            world.lock().unwrap().does("connects");
            world.lock().unwrap().opens();
            let wire = Wire(Arc::clone(&world));
            async move {
                let outcome = outcome.await.expect("the cache answers");
                outcome.map(|()| wire)
            }
        })
    }

    /// Advances the clock to this time.
    fn pass(&mut self, time: u64) {
        let client = self.client.take();
        let mut client = client.unwrap_or_else(|| self.begin());
        let world = &self.world;
        self.runtime.block_on(async {
            let until = world.lock().unwrap().at(time);
            while let Ok(event) = timeout_at(until, client.next()).await {
                did(&mut world.lock().unwrap(), &event);
            }
        });
        self.client = Some(client);
    }

    /// Carries out a step of the cache or the caller.
    fn take_step(&mut self, step: &str, words: &[&str]) {
        let outcome = match words {
            ["accepts"] => Ok(()),
            ["refuses"] => Err(ErrorKind::ConnectionRefused.into()),
            ["asks"] => return self.client.as_mut().expect("a client").ask_now(),
            _ => return self.world.lock().unwrap().take_step(step, words),
        };
        let dialing = self.dialing.lock().unwrap().take();
        let _ = dialing.expect("the client connects").send(outcome);
    }

    /// Carries out a line, and returns the answer, if it has a time: when the client wakes isn't
    /// known.
    fn line(&mut self, words: &[&str]) -> Option<String> {
        match words {
            ["scene", ..] => *self = RouterEnd::new(),
            ["router", name, value] => self.set(name, value.parse().unwrap()),
            ["at", time] => self.pass(time.parse().unwrap()),
            [time, step, words @ ..] => {
                let time = time.parse().unwrap();
                self.pass(time);
                self.take_step(step, words);
                self.pass(time);
            }
            _ => panic!("no step: {words:?}"),
        }
        if matches!(words[0], "scene" | "router") {
            return None;
        }
        Some(answer(&mut self.world.lock().unwrap().steps, u64::MAX))
    }
}

/// Records an event.
fn did(world: &mut World, event: &Event) {
    match event {
        Event::Data { data, .. } => world.does(&format!("shows {{ {} }}", hex(data.as_bytes()))),
        Event::Dropped { .. } => world.does("drops"),
        Event::Failed(ClientError::NoData(_)) => world.does("no data"),
        _ => {}
    }
}

#[test]
fn transcripts() {
    play(&["router"], "joined");
}

/// An end, if the environment names a file for its answers.
#[test]
fn joined() {
    let mut end = RouterEnd::new();
    each_line(|words| end.line(words));
}
