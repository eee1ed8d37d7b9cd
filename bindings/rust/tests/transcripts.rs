//! A router without sockets plays each scene (`tests/transcripts`).
#![cfg(feature = "alloc")]

#[path = "../src/scenes.rs"]
mod scenes;

use rtr_wire::{ClientError, ClientOptions, Router, Step};
use scenes::{answer, bytes_of, each_line, hex, play};
use std::fmt::Write;
use std::time::Duration;

/// A router with a simulated clock, as an end of a connection (`tests/joined`).
#[derive(Default)]
struct RouterEnd {
    options: ClientOptions,
    chance: u16,
    router: Option<Router>,
    now: u64,
    connected: bool,
    broken: bool,
    /// What it did since the last answer.
    steps: String,
}

impl RouterEnd {
    fn router(&mut self) -> &mut Router {
        let (options, chance) = (&self.options, self.chance);
        self.router
            .get_or_insert_with(|| Router::new(options, chance))
    }

    fn does(&mut self, what: &str) {
        writeln!(self.steps, "{} {}", self.now, what).unwrap();
    }

    /// Sends queries and reports.
    fn sends(&mut self) {
        let output = self.router().output().to_vec();
        if !self.broken && !output.is_empty() {
            self.does(&format!("router> {}", hex(&output)));
            self.router().sent(output.len());
        }
    }

    /// Runs the router until it waits.
    fn settle(&mut self) {
        loop {
            let now = self.now;
            let step = self.router().next(now);
            if matches!(step, Step::Wait | Step::Close) {
                self.sends();
            }
            match step {
                Step::Wait => return,
                Step::Connect => self.does("connects"),
                Step::Close => {
                    self.connected = false;
                    self.does("closes");
                }
                Step::Data(_) => {
                    let data = self.router().data().expect("there are data").clone();
                    self.does(&format!("shows {{ {} }}", hex(data.as_bytes())));
                }
                Step::Dropped(_) => self.does("drops"),
                Step::Failed(ClientError::NoData(_)) => self.does("no data"),
                _ => {}
            }
        }
    }

    /// Advances the clock to this time.
    fn pass(&mut self, time: u64) {
        while self.router().wakes() <= time {
            self.now = self.now.max(self.router().wakes());
            self.settle();
        }
        self.now = time;
    }

    /// Carries out a step of the cache, the router's caller, or the clock.
    fn given(&mut self, time: u64, step: &str, words: &[&str]) {
        self.pass(time);
        match step {
            ">" if self.connected => self.router().received(&bytes_of(words)),
            "accepts" => {
                self.connected = true;
                self.broken = false;
                self.router().connected(time);
            }
            "closes" => self.router().received(&[]),
            "asks" => self.router().ask_now(),
            "refuses" | "breaks" => {
                self.broken = true;
                #[cfg(feature = "std")]
                {
                    let error = std::io::Error::new(std::io::ErrorKind::Other, step);
                    self.router().lost(time, error);
                }
                #[cfg(not(feature = "std"))]
                self.router().disconnected(time);
            }
            _ => {}
        }
        if step != "at" {
            self.settle();
        }
    }

    fn set(&mut self, name: &str, value: u64) {
        let span = Duration::from_millis(value);
        match name {
            "version" => self.options.version = value.try_into().unwrap(),
            "chance" => self.chance = value.try_into().unwrap(),
            "pause" => self.options.pause = span,
            "connect-limit" => self.options.dial = span,
            "response-limit" => self.options.response = span,
            "refresh" => self.options.refresh = Some(span),
            "retry" => self.options.retry = Some(span),
            "expire" => self.options.expire = Some(span),
            "most-units" => self.options.units = value,
            "most-bytes" => self.options.bytes = value.try_into().unwrap(),
            _ => panic!("no setting {name}"),
        }
    }

    /// Carries out a line, and returns the answer, if it has a time.
    fn line(&mut self, words: &[&str]) -> Option<String> {
        match words {
            ["scene", ..] => *self = RouterEnd::default(),
            ["router", name, value] => self.set(name, value.parse().unwrap()),
            ["at", time] => self.given(time.parse().unwrap(), "at", &[]),
            [time, "cache>", bytes @ ..] => self.given(time.parse().unwrap(), ">", bytes),
            [time, "cache" | "caller", step] => self.given(time.parse().unwrap(), step, &[]),
            _ => panic!("no step: {words:?}"),
        }
        if matches!(words[0], "scene" | "router") {
            return None;
        }
        let wakes = self.router().wakes();
        Some(answer(&mut self.steps, wakes))
    }
}

#[test]
fn transcripts() {
    play(&["router"], "joined");
}

/// An end, if the environment names a file for its answers.
#[test]
fn joined() {
    let mut end = RouterEnd::default();
    each_line(|words| end.line(words));
}
