//! A router's end of a session with buffers and data, without sockets or a clock: the proved client
//! of the archive, and the buffers that it works in.

use crate::abi::{self, link_status, todo_kind, LinkState, Todo};
use crate::abi::{LONGEST_UNIT, SERIAL_SIZE};
use crate::calls;
use crate::options::ClientOptions;
use crate::owned_data::Data;
use alloc::collections::TryReserveError;
use alloc::vec;
use alloc::vec::Vec;
use core::mem::take;

/// The proved client, its buffers, which grow when it asks for that, and its data. Times are in
/// milliseconds.
#[derive(Debug)]
pub(crate) struct Link {
    client: abi::Link,
    /// The input: its first `filled` bytes were read.
    input: Vec<u8>,
    /// The buffer for the next data; its length is 0, only its capacity is used.
    next_data: Vec<u8>,
    /// The index to sort an answer; its length is 0, only its capacity is used.
    index: Vec<usize>,
    output: Vec<u8>,
    data: Option<Data>,
    /// The data before the last change of them, until they are taken.
    former: Option<Data>,
    /// Whether the data are in the second of the two buffers that the client has for data.
    is_second: bool,
    /// The time of the last call.
    now: u64,
    /// The number of filled bytes of the input before the last call.
    filled_before: usize,
    /// Whether there was no memory for received bytes.
    is_starved: bool,
    /// Whether the last call gave up for lack of memory.
    gave_up: bool,
}

/// A call that takes the input and the output.
type InputOutputCall = fn(&mut abi::Link, u64, &mut [u8], &mut [u8]) -> (Todo, u8);

/// Panics if a call was refused: either the caller's clock went back, or this crate has a bug.
fn must(status: u8) {
    assert!(
        status != link_status::BAD_TIME,
        "the time of a router goes back"
    );
    assert!(
        status == link_status::OK,
        "a call of a router's end is refused: status {status}"
    );
}

/// Grows a buffer to this size. Its capacity at least doubles, so that a long answer is seldom
/// moved, or if memory doesn't allow that, grows to the size.
fn lengthen(buffer: &mut Vec<u8>, size: usize) -> Result<(), TryReserveError> {
    let more = size.saturating_sub(buffer.len());
    if buffer.try_reserve(more).is_err() {
        buffer.try_reserve_exact(more)?;
    }
    buffer.resize(size, 0);
    Ok(())
}

fn is_room(kind: u8) -> bool {
    (todo_kind::INPUT_ROOM..=todo_kind::OUTPUT_ROOM).contains(&kind)
}

impl Link {
    /// Returns a client with these options and a random number.
    pub(crate) fn new(options: &ClientOptions, chance: u16) -> Link {
        let mut client = abi::Link::default();
        calls::link_init(&mut client, &options.settings(chance));
        Link {
            client,
            input: Vec::new(),
            next_data: Vec::new(),
            index: Vec::new(),
            // Two queries and a report.
            output: vec![0; LONGEST_UNIT + 2 * SERIAL_SIZE],
            data: None,
            former: None,
            is_second: false,
            now: 0,
            filled_before: 0,
            is_starved: false,
            gave_up: false,
        }
    }

    /// Restarts without data and connection: the waits for a failing cache continue to grow.
    pub(crate) fn again(&mut self) {
        must(calls::link_again(&mut self.client));
        self.data = None;
        self.former = None;
        self.is_starved = false;
        self.is_second = self.state(self.now).second;
    }

    pub(crate) fn data(&self) -> Option<&Data> {
        self.data.as_ref()
    }

    pub(crate) fn into_data(self) -> Option<Data> {
        self.data
    }

    /// Takes the data that the present ones replaced, or that were dropped.
    pub(crate) fn take_former(&mut self) -> Option<Data> {
        self.former.take()
    }

    /// Reports whether there are data that haven't expired at this time.
    pub(crate) fn has_data(&self, now: u64) -> bool {
        self.state(now).has_data
    }

    /// Returns when to call [`Link::next`] if nothing happens before.
    pub(crate) fn wakes(&self) -> u64 {
        self.state(self.now).wakes
    }

    /// Reports that a connection was opened.
    pub(crate) fn opened(&mut self) {
        must(calls::link_opened(&mut self.client));
    }

    /// Reports that connecting failed, or that the connection was lost.
    pub(crate) fn lost(&mut self) {
        must(calls::link_lost(&mut self.client));
    }

    /// Returns the buffer to read bytes into: not empty after [`todo_kind::WAIT`].
    pub(crate) fn input_buffer(&mut self) -> &mut [u8] {
        let filled = self.filled();
        &mut self.input[filled..]
    }

    /// Reports that `count` bytes were read into that buffer.
    pub(crate) fn received(&mut self, count: usize) {
        must(calls::link_received(&mut self.client, &self.input, count));
    }

    /// Adds received bytes. Without memory for them the next call gives up.
    pub(crate) fn add(&mut self, bytes: &[u8]) {
        let needed = self.filled() + bytes.len();
        if needed > self.input.len() && lengthen(&mut self.input, needed).is_err() {
            self.is_starved = true;
            return;
        }
        self.input_buffer()[..bytes.len()].copy_from_slice(bytes);
        self.received(bytes.len());
    }

    /// Returns the unsent bytes.
    pub(crate) fn output(&self) -> &[u8] {
        &self.output[..self.state(self.now).unsent]
    }

    /// Reports that `count` of them were sent.
    pub(crate) fn sent(&mut self, count: usize) {
        let status = calls::link_sent(&mut self.client, &mut self.output, count);
        assert!(
            status != link_status::TOO_LONG,
            "{}",
            abi::failure::MORE_SENT
        );
        must(status);
    }

    /// Returns the input from an offset of a todo on, as it was before the last call: there the
    /// unit begins.
    pub(crate) fn input_from(&self, offset: usize) -> &[u8] {
        &self.input[offset..self.filled_before]
    }

    /// Reports whether the last call gave up for lack of memory.
    pub(crate) fn gave_up(&self) -> bool {
        self.gave_up
    }

    /// Returns what to do next, after growing buffers and skipping steps without effect for the
    /// caller.
    pub(crate) fn next(&mut self, now: u64) -> Todo {
        self.trim();
        self.gave_up = false;
        if take(&mut self.is_starved) {
            return self.give_up(now);
        }
        loop {
            let todo = self.turn(now);
            if is_room(todo.kind) && self.grow(&todo).is_err() {
                return self.give_up(now);
            }
            if !is_room(todo.kind) && todo.kind != todo_kind::GO {
                return todo;
            }
        }
    }

    /// Requests current data. Returns what to do, as [`Link::next`].
    pub(crate) fn ask_now(&mut self, now: u64) -> Todo {
        loop {
            let todo = self.tell(now, calls::link_ask_now);
            if todo.kind != todo_kind::OUTPUT_ROOM {
                return todo;
            }
            if self.grow(&todo).is_err() {
                return self.give_up(now);
            }
        }
    }

    /// Gives up for lack of memory: the connection ends, and the data stay.
    fn give_up(&mut self, now: u64) -> Todo {
        self.gave_up = true;
        self.tell(now, calls::link_give_up)
    }

    /// Makes a call on the input and the output.
    fn tell(&mut self, now: u64, call: InputOutputCall) -> Todo {
        self.filled_before = self.filled();
        self.now = now;
        let (todo, status) = call(&mut self.client, now, &mut self.input, &mut self.output);
        must(status);
        self.follow(&todo);
        todo
    }

    /// Lets the client take its next step.
    fn turn(&mut self, now: u64) -> Todo {
        self.filled_before = self.filled();
        self.now = now;
        let mut todo = Todo::default();
        let held = self.data.as_ref().map_or(&[][..], Data::as_bytes);
        // The client doesn't write to the buffer of the present data, whose bytes are shared.
        let held = (held.as_ptr() as *mut u8, held.len());
        let next = (self.next_data.as_mut_ptr(), self.next_data.capacity());
        let (first, second) = in_order(self.is_second, held, next);
        // SAFETY: all structs and buffers are live, and the buffers are of these lengths.
        must(unsafe {
            abi::rtr_link_next_nonnull(
                &mut self.client,
                now,
                self.input.as_mut_ptr(),
                self.input.len(),
                first.0,
                first.1,
                second.0,
                second.1,
                self.index.as_mut_ptr(),
                self.index.capacity(),
                self.output.as_mut_ptr(),
                self.output.len(),
                &mut todo,
            )
        });
        self.follow(&todo);
        todo
    }

    /// Updates the buffers and the data after a call.
    fn follow(&mut self, todo: &Todo) {
        if todo.kind == todo_kind::DATA {
            self.is_second = !self.is_second;
            let mut data = take(&mut self.next_data);
            let shown = self.state_of(data.capacity(), self.now).shown;
            // SAFETY: the client wrote the data to the start of this buffer.
            unsafe { data.set_len(shown) };
            self.former = self.data.replace(Data::shrunk(data));
        }
        if todo.drops || todo.kind == todo_kind::DROPPED {
            self.former = self.data.take();
        }
        if !is_room(todo.kind) {
            self.next_data = Vec::new();
            self.index = Vec::new();
        }
    }

    /// Grows the buffer that the client asks for, if memory allows.
    fn grow(&mut self, todo: &Todo) -> Result<(), TryReserveError> {
        match todo.kind {
            todo_kind::INPUT_ROOM => lengthen(&mut self.input, todo.room),
            todo_kind::OUTPUT_ROOM => lengthen(&mut self.output, todo.room),
            todo_kind::INDEX_ROOM => self.index.try_reserve_exact(todo.room),
            _ => self.next_data.try_reserve_exact(todo.room),
        }
    }

    /// Shrinks the input after a long answer.
    fn trim(&mut self) {
        const MOST: usize = 8 * LONGEST_UNIT;
        let filled = self.filled();
        let (size, mut short) = (filled + LONGEST_UNIT, Vec::new());
        if self.input.capacity() > MOST.max(8 * filled) && short.try_reserve_exact(size).is_ok() {
            short.extend_from_slice(&self.input[..filled]);
            self.input = short;
        }
    }

    fn filled(&self) -> usize {
        self.state(self.now).filled
    }

    fn state(&self, now: u64) -> LinkState {
        self.state_of(
            self.data.as_ref().map_or(0, |data| data.as_bytes().len()),
            now,
        )
    }

    /// Returns the state of the buffers, if that of the present data has this length.
    fn state_of(&self, held: usize, now: u64) -> LinkState {
        let (first, second) = in_order(self.is_second, held, self.next_data.capacity());
        let (input, output) = (self.input.len(), self.output.len());
        let (state, status) = calls::link_state(&self.client, now, input, first, second, output);
        must(status);
        state
    }
}

/// Orders the buffers of the present and the next data; the present data may be in the second one.
fn in_order<T>(is_second: bool, held: T, next: T) -> (T, T) {
    if is_second {
        (next, held)
    } else {
        (held, next)
    }
}
