//! Follows several caches by preference, each in a thread.

use crate::client::Client;
use crate::group::{Decision, GroupSettings, News};
use crate::owned_data::Data;
use crate::preferred::Preferred;
use crate::router::{Event, Step};
use crate::running::{Follower, Timed};
use crate::timed::milliseconds_since;
use std::format;
use std::io;
use std::ops::ControlFlow;
use std::sync::mpsc::{sync_channel, Receiver, RecvTimeoutError, SyncSender};
use std::sync::{Arc, Mutex, PoisonError};
use std::thread;
use std::time::{Duration, Instant};
use std::vec::Vec;

/// Follows the data of the most preferred cache that answers (RFC 8210 section 10), as a
/// [`Group`](crate::Group) with this number of members decides, until `on` breaks or a running
/// client is stopped. Returns the data in use at the end. The group has the default settings; an
/// answer without payloads counts as data if there is only one member.
///
/// Each time a member is started, `client` returns the client for its number, which runs in its own
/// thread. `on` is called with each event: [`Event::Data`] of the member whose data are used,
/// [`Event::Dropped`] of the last one that had data, and each [`Event::Failed`], also
/// [`ClientError::Empty`](crate::ClientError::Empty). After a switch to another member the changes
/// are those from the data used before, of any session and version.
///
/// Clients that aren't needed any more are stopped, and all are stopped at the end, without waiting
/// for their threads.
///
/// # Errors
///
/// For more than [`Group::MOST`](crate::Group::MOST) members, or if a thread can't be started.
///
/// ```
/// use rtr_wire::{follow, Client, ClientOptions, Data, Event, RoaPayload, Server, ServerOptions};
/// use std::ops::ControlFlow;
/// use std::sync::Arc;
///
/// let server = Server::new(ServerOptions::default());
/// let vrp = RoaPayload {
///     address: [192, 0, 2, 0].into(),
///     length: 24,
///     max_length: None,
///     asn: 64496,
/// };
/// let data = Data::of_vrps([vrp], 1, 4660, 1, None)?;
/// server.update(data.clone())?;
///
/// // Nothing listens at the first address.
/// let addresses = ["127.0.0.1:1".to_string(), server.listen("127.0.0.1:0")?.to_string()];
/// let client = |member: usize| {
///     let address = addresses[member].as_str();
///     Arc::new(Client::new(address, ClientOptions::default()))
/// };
/// let shown = follow(addresses.len(), client, |member, event| match event {
///     Event::Data { .. } => {
///         assert_eq!(member, 1);
///         ControlFlow::Break(())
///     }
///     _ => ControlFlow::Continue(()),
/// })?;
/// assert_eq!(shown, Some(data));
/// # Ok::<(), Box<dyn std::error::Error>>(())
/// ```
pub fn follow(
    members: usize,
    client: impl FnMut(usize) -> Arc<Client>,
    on: impl FnMut(usize, Event<'_>) -> ControlFlow<()>,
) -> io::Result<Option<Data>> {
    run(None, members, client, on)
}

/// Follows the members as [`follow`] does, with these settings.
///
/// # Errors
///
/// As [`follow`].
pub fn follow_with(
    settings: GroupSettings,
    members: usize,
    client: impl FnMut(usize) -> Arc<Client>,
    on: impl FnMut(usize, Event<'_>) -> ControlFlow<()>,
) -> io::Result<Option<Data>> {
    run(Some(settings), members, client, on)
}

fn run(
    settings: Option<GroupSettings>,
    members: usize,
    client: impl FnMut(usize) -> Arc<Client>,
    mut on: impl FnMut(usize, Event<'_>) -> ControlFlow<()>,
) -> io::Result<Option<Data>> {
    let preferred = Preferred::new(members, settings, 0)
        .map_err(|error| io::Error::new(io::ErrorKind::InvalidInput, error))?;
    let (sender, receiver) = sync_channel(0);
    let mut followed = Followed {
        begun: Instant::now(),
        preferred,
        members: (0..members).map(|_| None).collect(),
        kept: (0..members).map(|_| SavedRouter::default()).collect(),
        turns: 0,
        client,
        sender,
    };
    if members > 0 {
        followed.start(0)?;
        followed.run(&receiver, &mut on)?;
    }
    Ok(followed.preferred.into_shown())
}

/// The router of a stopped member, with its clock, with which it continues when it is started
/// again. A run holds the lock from its start to its end.
type SavedRouter = Arc<Mutex<Option<Timed>>>;

/// A message of a member's thread.
struct Message {
    member: usize,
    turn: u64,
    /// The step, what it means to the group, and the data after it; none if the client has ended.
    step: Option<Told>,
}

/// A step, what it means to the group, and the data after it.
type Told = ((Step, News), Option<Data>);

/// The sending end of a member's thread. Dropping it reports that the client has ended.
struct Outlet {
    member: usize,
    turn: u64,
    sender: SyncSender<Message>,
}

impl Outlet {
    /// Sends a message; breaks off if nobody receives any more.
    fn tell(&self, step: Option<Told>) -> ControlFlow<()> {
        let (member, turn) = (self.member, self.turn);
        match self.sender.send(Message { member, turn, step }) {
            Ok(()) => ControlFlow::Continue(()),
            Err(_) => ControlFlow::Break(()),
        }
    }
}

impl Drop for Outlet {
    fn drop(&mut self) {
        let _ = self.tell(None);
    }
}

/// A running member. Dropping it stops its client.
struct Member {
    /// The number of this start: messages of earlier starts are ignored.
    turn: u64,
    client: Arc<Client>,
}

impl Drop for Member {
    fn drop(&mut self) {
        self.client.stop();
    }
}

/// The members, and the data in use.
struct Followed<C> {
    begun: Instant,
    preferred: Preferred,
    members: Vec<Option<Member>>,
    kept: Vec<SavedRouter>,
    turns: u64,
    client: C,
    sender: SyncSender<Message>,
}

impl<C: FnMut(usize) -> Arc<Client>> Followed<C> {
    fn start(&mut self, member: usize) -> io::Result<()> {
        let client = (self.client)(member);
        self.turns += 1;
        let (turn, sender) = (self.turns, self.sender.clone());
        self.members[member] = Some(Member {
            turn,
            client: Arc::clone(&client),
        });
        let kept = Arc::clone(&self.kept[member]);
        let thread = thread::Builder::new().name(format!("rtr client {member}"));
        thread.spawn(move || {
            let outlet = Outlet {
                member,
                turn,
                sender,
            };
            let mut kept = kept.lock().unwrap_or_else(PoisonError::into_inner);
            let follower = Follower::new(&client, kept.take());
            let router = follower.steps(|step, data| outlet.tell(Some((step, data.cloned()))));
            *kept = Some(router);
        })?;
        Ok(())
    }

    /// Returns the group's time.
    fn now(&self) -> u64 {
        milliseconds_since(self.begun)
    }

    /// Waits for the next message of a thread, at most until the group's next tick.
    fn next(&self, messages: &Receiver<Message>) -> Result<Message, RecvTimeoutError> {
        match self.preferred.wakes() {
            u64::MAX => messages.recv().map_err(RecvTimeoutError::from),
            wakes => messages.recv_timeout(Duration::from_millis(wakes.saturating_sub(self.now()))),
        }
    }

    /// Handles messages until the caller breaks off or a client has ended.
    fn run(
        &mut self,
        messages: &Receiver<Message>,
        on: &mut impl FnMut(usize, Event<'_>) -> ControlFlow<()>,
    ) -> io::Result<()> {
        loop {
            let decided = match self.next(messages) {
                Err(RecvTimeoutError::Disconnected) => return Ok(()),
                Err(RecvTimeoutError::Timeout) => self.preferred.tick(self.now()),
                Ok(Message { member, turn, step }) => {
                    if !matches!(&self.members[member], Some(runs) if runs.turn == turn) {
                        continue;
                    }
                    match step {
                        Some((step, data)) => {
                            let now = self.now();
                            self.preferred.tell(now, member, step, data.as_ref())
                        }
                        None => return Ok(()),
                    }
                }
            };
            if self.tell(on).is_break() {
                return Ok(());
            }
            self.stop_and_start(&decided)?;
        }
    }

    /// Passes events to the caller.
    fn tell(
        &mut self,
        on: &mut impl FnMut(usize, Event<'_>) -> ControlFlow<()>,
    ) -> ControlFlow<()> {
        while let Some((member, step)) = self.preferred.take_step() {
            if let Some(event) = self.preferred.event(&step) {
                on(member, event)?;
            }
        }
        ControlFlow::Continue(())
    }

    /// Stops and starts members.
    fn stop_and_start(&mut self, decided: &Decision) -> io::Result<()> {
        if let Some(first) = decided.stop {
            self.members[first..]
                .iter_mut()
                .for_each(|left| *left = None);
        }
        match decided.start {
            Some(member) => self.start(member),
            None => Ok(()),
        }
    }
}
