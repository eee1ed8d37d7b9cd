//! The proved door of a server.

use crate::abi::{self, entry};
use crate::calls;
use crate::options::ServerOptions;

/// The door of a server: it counts connections, and decides whether a new one is served. For
/// programs that serve each connection by a [`Served`](crate::Served).
///
/// Call [`Door::next`] before you accept a connection, [`Door::enter`] when you accepted one, and
/// [`Door::leave`] when you closed one.
///
/// ```
/// use rtr_wire::{Door, Entry, ServerOptions};
///
/// let mut door = Door::new(&ServerOptions { connections: 1, ..ServerOptions::default() });
/// assert_eq!(door.enter(true), Entry::Serve);
/// assert_eq!(door.enter(true), Entry::Refuse);
/// assert!(door.leave(Entry::Serve));
/// assert_eq!(door.next(true), Entry::Serve);
/// ```
#[derive(Clone, Debug)]
pub struct Door(abi::Door);

/// What a new connection gets.
#[derive(Clone, Copy, Debug, PartialEq, Eq)]
pub enum Entry {
    /// It is served.
    Serve,
    /// It gets a report of code 1, and is closed: call [`Served::refuse`](crate::Served::refuse).
    Refuse,
    /// It isn't accepted now. If it is already, it is closed without a report.
    Wait,
}

impl Door {
    /// Creates the door of a server without connections. At most [`ServerOptions::connections`] are
    /// served at once, and [`ServerOptions::refused`] more refused at once.
    #[must_use]
    pub fn new(options: &ServerOptions) -> Self {
        let mut door = abi::Door::default();
        calls::door_init(&mut door, &options.settings());
        Door(door)
    }

    /// Returns what a new connection would get now. `has_spare` reports whether the system has a
    /// descriptor beside that of the connection: without one it isn't served.
    #[must_use]
    pub fn next(&self, has_spare: bool) -> Entry {
        Entry::of(calls::door_next(&self.0, has_spare))
    }

    /// Counts a connection that was accepted, and returns what it gets; `has_spare` is that of
    /// [`Door::next`].
    pub fn enter(&mut self, has_spare: bool) -> Entry {
        Entry::of(calls::door_enter(&mut self.0, has_spare))
    }

    /// Records that the connection that got this entry was closed. Returns false, and changes
    /// nothing, if none that got it is open.
    pub fn leave(&mut self, entry: Entry) -> bool {
        calls::door_leave(&mut self.0, entry.number())
    }

    /// Returns how many connections are served: each counts until it is closed.
    #[must_use]
    pub fn clients(&self) -> usize {
        usize::try_from(self.0.served).unwrap_or(usize::MAX)
    }
}

impl Entry {
    fn of(number: u8) -> Entry {
        match number {
            entry::ENTRY_SERVE => Entry::Serve,
            entry::ENTRY_REFUSE => Entry::Refuse,
            _ => Entry::Wait,
        }
    }

    fn number(self) -> u8 {
        match self {
            Entry::Serve => entry::ENTRY_SERVE,
            Entry::Refuse => entry::ENTRY_REFUSE,
            Entry::Wait => entry::ENTRY_WAIT,
        }
    }
}
