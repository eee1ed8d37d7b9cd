//! The proved pace of a server's connection: what its host does next, and when a limit ends it.
//! Times are in milliseconds.

pub(crate) use crate::abi::Connection;

use crate::abi::{cut, step, ServerSettings};
use crate::cache_machine::{Cache, Present};
use crate::calls;
use crate::server_error::ServerError;

/// What the host of a connection does next.
#[derive(Debug)]
pub(crate) enum Next {
    /// Wait until bytes come, the client closes, there are new data, or the time of `wakes`.
    Wait,
    /// Pass the input to the machine, then call `heard`.
    Hear,
    /// Tell the machine the time.
    Tick,
    /// Tell the machine that the client has closed.
    Lose,
    /// Send unsent bytes, then call `sent`.
    Send,
    /// Shut the connection down for writing, and read until the client closes.
    Finish,
    /// Close: for this reason, or since the machine has ended the connection.
    Close(Option<ServerError>),
}

/// The value of `state` of a connection that hasn't ended.
const OPEN: u8 = 0;

impl Connection {
    /// Creates a connection that was accepted at this time.
    pub(crate) fn new(now: u64, settings: &ServerSettings) -> Connection {
        let mut connection = Connection::default();
        calls::connection_init(&mut connection, now, settings);
        connection
    }

    /// Reports whether it hasn't ended or broken.
    pub(crate) fn is_open(&self) -> bool {
        self.state == OPEN
    }

    /// Records that `size` bytes were read.
    pub(crate) fn received(&mut self, now: u64, size: usize) {
        calls::connection_received(self, now, size);
    }

    /// Records that the client closed the connection.
    pub(crate) fn close(&mut self) {
        calls::connection_closed(self);
    }

    /// Records that the connection broke: nothing is sent on it any more.
    pub(crate) fn broke(&mut self) {
        calls::connection_broke(self);
    }

    /// Records that the machine took `size` bytes of the input: 0 if it has no whole unit.
    pub(crate) fn heard(&mut self, now: u64, size: usize) {
        calls::connection_heard(self, now, size);
    }

    /// Begins an answer of `size` bytes while the newest data have this number. Returns false, and
    /// changes nothing, while another answer is unsent, or after the end.
    pub(crate) fn answers(&mut self, now: u64, size: usize, number: u64) -> bool {
        calls::connection_answers(self, now, size, number)
    }

    /// Ends the connection, with a report of `size` bytes, or without one if it is 0. Returns
    /// false, and changes nothing, while an answer is unsent, or after the end.
    pub(crate) fn ends(&mut self, now: u64, size: usize) -> bool {
        calls::connection_ends(self, now, size)
    }

    /// Records that `size` bytes were sent. Returns false, and changes nothing, if fewer are
    /// unsent.
    pub(crate) fn sent(&mut self, now: u64, size: usize) -> bool {
        calls::connection_sent(self, now, size)
    }

    /// Returns what the host has to do now; `number` is that of the present data.
    pub(crate) fn next(&self, now: u64, machine: &Cache, present: Present, number: u64) -> Next {
        match calls::connection_next(self, now, machine, &present, number) {
            (_, step::STEP_WAIT) => Next::Wait,
            (_, step::STEP_HEAR) => Next::Hear,
            (_, step::STEP_TICK) => Next::Tick,
            (_, step::STEP_LOSE) => Next::Lose,
            (_, step::STEP_SEND) => Next::Send,
            (_, step::STEP_FINISH) => Next::Finish,
            (cut::CUT_SLOW, _) => Next::Close(Some(ServerError::TooSlow)),
            (cut::CUT_NEW_SESSION, _) => Next::Close(Some(ServerError::OtherSession)),
            (cut::CUT_BEHIND, _) => Next::Close(Some(ServerError::TooFarBehind)),
            _ => Next::Close(None),
        }
    }

    /// Returns when to call `next`, if nothing happens before.
    pub(crate) fn wakes(&self, machine: &Cache, present: Present) -> u64 {
        calls::connection_wakes(self, machine, &present)
    }
}
