//! A cache's connection to a client, without sockets or a clock.

use crate::body::Body;
use crate::cache::Moment;
use crate::cache_machine::{serving, Cache as Machine, Serving};
use crate::connection::{Connection, Next};
use crate::input::Input;
use crate::output::Output;
use crate::server_error::ServerError;
use std::fs::File;
use std::io;
use std::vec::Vec;

/// What the host of a [`Served`] has to do next.
#[derive(Debug)]
#[non_exhaustive]
pub enum ServedStep {
    /// Read, then call [`Served::received`] or [`Served::lost`].
    Receive,
    /// Send some of [`Served::output`], then call [`Served::sent`] or [`Served::lost`].
    Send,
    /// Shut the connection down for writing, and continue to read.
    Finish,
    /// Close the connection, once its socket has sent what it holds, if that is before
    /// [`Served::wakes`].
    Close,
    /// The reason for which the connection ends. Unsent bytes are sent before it is closed.
    Ended(ServerError),
}

/// A connection of a client to a [`Cache`](crate::Cache) (RFC 8210), without sockets or a clock:
/// its program passes bytes and times, and does what [`Served::next`] returns. Proved calls decide:
/// those of `rtr_cache` the answers, those of `rtr_connection` when a limit ends the connection. A
/// [`Door`](crate::Door) decides which connections are served.
///
/// Connections share the encoded data.
///
/// Call [`Served::next`] when something was read or sent, when the cache has new data, and when the
/// time is [`Served::wakes`]; after [`ServedStep::Finish`] and [`ServedStep::Ended`] call it again.
///
/// Here a [`Router`](crate::Router) talks to it without a socket:
///
/// ```
/// use rtr_wire::{Cache, ClientOptions, Data, Router, Served, ServedStep, ServerOptions, Step};
///
/// let (cache, now) = (Cache::new(ServerOptions::default()), 0);
/// let data = Data::new(1, 4660, 1, None)?;
/// cache.update(data.clone())?;
///
/// let mut router = Router::new(&ClientOptions::default(), 0);
/// assert!(matches!(router.next(now), Step::Connect));
/// router.connected(now);
/// let mut served = Served::new(&cache.at(now));
///
/// let query = router.output().to_vec();
/// router.sent(query.len());
/// served.received(&cache.at(now), &query);
/// while let ServedStep::Send = served.next(&cache.at(now)) {
///     let answer = served.output().concat();
///     served.sent(&cache.at(now), answer.len());
///     router.received(&answer);
/// }
/// while !matches!(router.next(now), Step::Wait) {}
/// assert_eq!(router.data(), Some(&data));
/// # Ok::<(), Box<dyn std::error::Error>>(())
/// ```
#[derive(Debug)]
pub struct Served {
    machine: Machine,
    connection: Connection,
    input: Input,
    /// The offset of the input in all received bytes.
    offset: u64,
    output: Option<Output>,
    /// Whether [`Served::next`] has returned [`ServedStep::Finish`].
    is_finished: bool,
    /// Why it ended, until [`Served::next`] has returned that.
    ended: Option<ServerError>,
}

impl Served {
    /// Creates a connection.
    #[must_use]
    pub fn new(moment: &Moment) -> Self {
        let settings = moment.options.settings();
        Served {
            machine: Machine::new(moment.now, &settings.cache),
            connection: Connection::new(moment.now, &settings),
            input: Input::default(),
            offset: 0,
            output: None,
            is_finished: false,
            ended: None,
        }
    }

    /// Refuses the new connection, by a report of code 1: the limit is reached ([`Door`]).
    ///
    /// [`Door`]: crate::Door
    pub fn refuse(&mut self, moment: &Moment) {
        if self.is_served() && self.output.is_some() {
            // Not a new connection: a report can't begin within an answer.
            return self.end(ServerError::TooManyClients);
        }
        let serving = self.machine.full(moment.now, moment.present());
        self.perform(&serving, moment);
    }

    /// Reports whether the connection is still open.
    #[must_use]
    pub fn is_served(&self) -> bool {
        self.connection.is_open()
    }

    /// Returns when to call [`Served::next`] if nothing happens before.
    #[must_use]
    pub fn wakes(&self, moment: &Moment) -> u64 {
        if self.ended.is_some() {
            return 0;
        }
        self.connection.wakes(&self.machine, moment.present())
    }

    /// Processes received bytes; none mean that the client has closed.
    pub fn received(&mut self, moment: &Moment, bytes: &[u8]) {
        if bytes.is_empty() {
            self.connection.close();
        } else if self.is_served() {
            self.input.add(bytes);
            self.connection.received(moment.now, bytes.len());
        }
    }

    /// Returns the unsent bytes: the second part follows the first.
    pub fn output(&self) -> [&[u8]; 2] {
        self.output.as_ref().map_or([&[], &[]], Output::parts)
    }

    /// Returns the file that holds the second part, and its offset there.
    pub(crate) fn file(&self) -> Option<(&File, usize)> {
        self.output.as_ref()?.file()
    }

    /// Reports that `count` bytes were sent.
    pub fn sent(&mut self, moment: &Moment, count: usize) {
        if self.connection.sent(moment.now, count) {
            let output = self.output.take();
            self.output = output.and_then(|output| output.sent(count));
        }
    }

    /// Reports that the connection broke. Its unsent bytes are lost, and it has to be closed.
    pub fn lost(&mut self, error: io::Error) {
        self.end(ServerError::Io(error));
    }

    /// Returns what to do now.
    pub fn next(&mut self, moment: &Moment) -> ServedStep {
        loop {
            if let Some(error) = self.ended.take() {
                return ServedStep::Ended(error);
            }
            let (now, present) = (moment.now, moment.present());
            let connection = &self.connection;
            match connection.next(now, &self.machine, present, moment.number()) {
                Next::Wait => return ServedStep::Receive,
                Next::Send => return ServedStep::Send,
                Next::Finish if self.is_finished => return ServedStep::Receive,
                Next::Finish => {
                    self.is_finished = true;
                    return ServedStep::Finish;
                }
                Next::Close(Some(error)) => self.end(error),
                Next::Close(None) => return ServedStep::Close,
                Next::Hear => self.hear(moment),
                Next::Tick => {
                    let serving = self.machine.tick(now, present);
                    self.perform(&serving, moment);
                }
                Next::Lose => {
                    let serving = self.machine.lost(now, present);
                    self.perform(&serving, moment);
                }
            }
        }
    }

    /// Passes the first unit of the input to the machine.
    fn hear(&mut self, moment: &Moment) {
        let (now, present) = (moment.now, moment.present());
        let newest = moment.newest.as_ref();
        let known = newest.map_or(&[][..], |newest| &newest.known);
        let (input, has_closed) = (self.input.bytes(), self.connection.closed);
        let serving = self.machine.read(now, present, known, input, has_closed);
        self.connection.heard(now, serving.taken);
        self.perform(&serving, moment);
        self.offset += serving.taken as u64;
        if self.is_served() {
            self.input.take(serving.taken);
        } else {
            self.input = Input::default();
        }
    }

    /// Starts to send what the machine returned.
    fn perform(&mut self, serving: &Serving, moment: &Moment) {
        let (version, serial) = (serving.version, serving.serial);
        let body = match (serving.kind, &moment.newest) {
            (serving::WAIT, _) => return,
            (serving::ALL, Some(newest)) => newest.all(version),
            (serving::CHANGES, Some(newest)) => newest.since(version, serial, &moment.options),
            _ => Body::default(),
        };
        let mut head = Vec::new();
        serving.append(self.input.bytes(), &mut head);
        let output = Output::new(head, body);
        let (now, size) = (moment.now, output.size());
        let begins = if serving.kind == serving::END {
            self.ended = ServerError::of(serving, self.input.bytes(), self.offset);
            self.connection.ends(now, size)
        } else {
            self.connection.answers(now, size, moment.number())
        };
        debug_assert!(begins, "it gets no event while an answer is sent");
        self.output = (size > 0).then_some(output);
    }

    /// Ends the connection at once, for this reason: nothing is sent any more.
    fn end(&mut self, error: ServerError) {
        if self.is_served() {
            self.ended = Some(error);
        }
        self.output = None;
        self.connection.broke();
    }
}
