//! A router's end of a session, without sockets or a clock.

use crate::abi::{client_failure, todo_kind, Todo};
use crate::calls;
use crate::changes::Changes;
use crate::client_error::ClientError;
use crate::group::News;
use crate::link::Link;
use crate::options::ClientOptions;
use crate::owned_data::Data;
use alloc::collections::VecDeque;
use core::mem::take;

/// What the program of a [`Router`] has to do next.
#[derive(Debug)]
#[non_exhaustive]
pub enum Step {
    /// Send [`Router::output`], if there is any, and wait until bytes come or the time is
    /// [`Router::wakes`].
    Wait,
    /// Open a connection, then call [`Router::connected`] or [`Router::lost`].
    Connect,
    /// Send the rest of [`Router::output`], and close the connection.
    Close,
    /// [`Router::data`] are new data; these are the changes from the data before.
    Data(Changes),
    /// The data were dropped; these changes withdraw them.
    Dropped(Changes),
    /// Why the connection was closed, or why there is no answer yet. The router continues.
    Failed(ClientError),
}

/// An event of a running [`Client`](crate::Client).
#[derive(Debug)]
#[non_exhaustive]
pub enum Event<'a> {
    /// An answer was completed: all data of the cache, and the changes from the data before. The
    /// changes are computed when they are first used.
    Data {
        /// The data.
        data: &'a Data,
        /// The changes from the data before.
        changes: &'a Changes,
    },
    /// The data were dropped, since they have expired or the cache has begun another session.
    Dropped {
        /// The withdrawals of all payloads.
        changes: &'a Changes,
    },
    /// A connection has ended, or a query has no answer yet. The client continues.
    Failed(&'a ClientError),
}

/// A router's end of a session (RFC 8210), without sockets or a clock: it takes bytes and times,
/// and returns what to do. The proved client of the archive decides that; this type has its buffers
/// and data.
///
/// Times are in milliseconds, by a monotonic clock: a method panics at an earlier time than that of
/// the last call. Data are immutable, and stay valid after the router has new ones.
#[derive(Debug)]
pub struct Router {
    link: Link,
    steps: VecDeque<Step>,
    connection: Connection,
    /// Why the connection was lost, if the caller reported that.
    error: Option<ClientError>,
    /// Whether a request for current data is pending.
    asks: bool,
    /// What the link did last, unless it was taken.
    news: News,
}

/// The connection of a router.
#[derive(Clone, Copy, Debug, PartialEq, Eq)]
enum Connection {
    None,
    /// The caller is opening a connection.
    Wanted,
    Open,
    /// Connecting failed, or no more bytes come; it isn't closed yet.
    Lost,
}

impl Router {
    /// Returns a router without data, which connects at once. The random number varies the waits of
    /// many routers.
    #[must_use]
    pub fn new(options: &ClientOptions, random: u16) -> Router {
        Router {
            link: Link::new(options, random),
            steps: VecDeque::new(),
            connection: Connection::None,
            error: None,
            asks: false,
            news: News::default(),
        }
    }

    /// Restarts without data and connection, for example in a group after a stop. The waits for a
    /// failing cache continue to grow; the clock continues, too.
    pub fn again(&mut self) {
        self.link.again();
        self.steps.clear();
        self.connection = Connection::None;
        self.error = None;
        self.asks = false;
        self.news = News::default();
    }

    /// Requests current data: at the next call of [`Router::next`] the router asks the cache, or
    /// without a connection connects, unless its last query or connection is less than a pause ago;
    /// then it does so after the pause. No-op while it connects or waits for an answer.
    pub fn ask_now(&mut self) {
        self.asks = true;
    }

    /// Reports whether it has data that haven't expired at this time (RFC 8210 section 6), even if
    /// [`Router::next`] hasn't dropped expired ones yet. The time must not be earlier than that of
    /// the last call.
    #[must_use]
    pub fn has_data(&self, now: u64) -> bool {
        self.link.has_data(now)
    }

    /// Returns the data after the last call of [`Router::next`], if there are any.
    /// [`Router::has_data`] reports whether they have expired since.
    #[must_use]
    pub fn data(&self) -> Option<&Data> {
        self.link.data()
    }

    /// Returns the data, if there are any.
    #[must_use]
    pub fn into_data(self) -> Option<Data> {
        self.link.into_data()
    }

    /// Returns the event of a step; none for a step that only asks for an action.
    #[must_use]
    pub fn event<'a>(&'a self, step: &'a Step) -> Option<Event<'a>> {
        match (step, self.data()) {
            (Step::Data(changes), Some(data)) => Some(Event::Data { data, changes }),
            (Step::Dropped(changes), _) => Some(Event::Dropped { changes }),
            (Step::Failed(error), _) => Some(Event::Failed(error)),
            _ => None,
        }
    }

    /// Takes what the last step means to a group: call it after each [`Step::Data`],
    /// [`Step::Dropped`] and [`Step::Failed`], before the next call of another method. Several
    /// steps may be one event of a group, which comes with the first of them.
    pub fn take_news(&mut self) -> News {
        take(&mut self.news)
    }

    /// Returns when to call [`Router::next`] if nothing happens before.
    #[must_use]
    pub fn wakes(&self) -> u64 {
        self.link.wakes()
    }

    /// Reports that the connection is open that [`Step::Connect`] asked for. No-op if it isn't
    /// needed any more.
    pub fn connected(&mut self, now: u64) {
        if self.connection == Connection::Wanted {
            self.connection = Connection::Open;
            self.link.opened();
            self.go_on(now);
        }
    }

    /// Reports that connecting failed, or the connection broke. No-op if it was closed before.
    #[cfg(feature = "std")]
    pub fn lost(&mut self, now: u64, error: std::io::Error) {
        if self.connection != Connection::None {
            self.error = Some(ClientError::Io(error));
        }
        self.disconnected(now);
    }

    /// Does the same as [`Router::lost`], without a reason.
    pub fn disconnected(&mut self, now: u64) {
        self.end_of_input();
        self.go_on(now);
    }

    /// Processes received bytes; none mean that the cache has closed. No-op without a connection,
    /// or after the cache has closed.
    pub fn received(&mut self, bytes: &[u8]) {
        if bytes.is_empty() {
            self.end_of_input();
        } else if self.connection == Connection::Open {
            self.link.add(bytes);
        }
    }

    /// Returns the buffer to read bytes into without a copy; then call [`Router::filled`]. It isn't
    /// empty while there is a connection and [`Router::next`] returned [`Step::Wait`].
    pub fn room(&mut self) -> &mut [u8] {
        self.link.input_buffer()
    }

    /// Reports that `count` bytes were read into [`Router::room`]; 0 means that the cache has
    /// closed.
    ///
    /// # Panics
    ///
    /// If that buffer is shorter.
    pub fn filled(&mut self, count: usize) {
        if count == 0 {
            self.end_of_input();
        } else if self.connection == Connection::Open {
            self.link.received(count);
        }
    }

    /// Records that no more bytes come.
    fn end_of_input(&mut self) {
        if matches!(self.connection, Connection::Wanted | Connection::Open) {
            self.connection = Connection::Lost;
            self.link.lost();
        }
    }

    /// Returns the bytes to send.
    #[must_use]
    pub fn output(&self) -> &[u8] {
        self.link.output()
    }

    /// Reports that `count` bytes of [`Router::output`] were sent.
    ///
    /// # Panics
    ///
    /// If there are fewer.
    pub fn sent(&mut self, count: usize) {
        self.link.sent(count);
    }

    /// Returns what to do now. After anything but [`Step::Wait`] call it again.
    pub fn next(&mut self, now: u64) -> Step {
        self.go_on(now);
        self.steps.pop_front().unwrap_or(Step::Wait)
    }

    /// Carries out requests of the link until there is a step for the caller, or it waits.
    fn go_on(&mut self, now: u64) {
        while self.steps.is_empty() && self.does(now) {}
    }

    /// Carries out the link's next request; returns false if that is to wait.
    fn does(&mut self, now: u64) -> bool {
        let mut todo = self.link.next(now);
        if todo.kind == todo_kind::WAIT && take(&mut self.asks) {
            todo = self.link.ask_now(now);
        }
        self.news = News(Some(todo));
        match todo.kind {
            todo_kind::WAIT => return false,
            todo_kind::CONNECT => {
                self.connection = Connection::Wanted;
                self.error = None;
                self.steps.push_back(Step::Connect);
            }
            todo_kind::CLOSE => self.close(&todo),
            todo_kind::DATA => self.tell_data(),
            todo_kind::DROPPED => {
                self.tell_data();
                self.steps.push_back(Step::Failed(ClientError::Expired));
            }
            todo_kind::NO_DATA => {
                let input = self.link.input_from(todo.offset);
                let no_data = ClientError::of_report(input, ClientError::NoData);
                self.steps.push_back(Step::Failed(no_data));
            }
            _ => {}
        }
        true
    }

    /// Queues the step for new data, or for their loss.
    fn tell_data(&mut self) {
        let (old, new) = (self.link.take_former(), self.link.data().cloned());
        let step = if new.is_some() {
            Step::Data
        } else {
            Step::Dropped
        };
        self.steps.extend(Changes::between(old, new).map(step));
    }

    /// Queues the end of the connection, and its reason.
    fn close(&mut self, todo: &Todo) {
        if todo.drops {
            self.tell_data();
        }
        self.connection = Connection::None;
        self.steps.push_back(Step::Close);
        let error = self.ending(todo);
        self.steps.extend(error.map(Step::Failed));
    }

    /// Why the connection ends; none if the router reconnects at once in another version.
    fn ending(&mut self, todo: &Todo) -> Option<ClientError> {
        let lost = self.error.take();
        match calls::todo_failure(todo, self.link.gave_up()) {
            client_failure::NONE => None,
            client_failure::LOST => Some(lost.unwrap_or(ClientError::Closed)),
            failure => {
                let input = self.link.input_from(todo.offset);
                Some(ClientError::of(failure, todo, input))
            }
        }
    }
}
