//! Caches by preference.

use crate::client::AsyncClient;
use crate::running::since;
use crate::timer::Timer;
use rtr_wire::{Data, Decision, Event, GroupSettings, Preferred, Step, TooManyMembers};
use std::fmt;
use std::future::Future;
use std::pin::Pin;
use std::task::{Context, Poll};
use tokio::io::{AsyncRead, AsyncWrite};
use tokio::time::Instant;

/// Follows several caches, and shows the data of the most preferred one that answers (RFC 8210
/// section 10), by the rules of [`rtr_wire::follow`]. The task that awaits it runs all clients.
///
/// It runs while [`next`](AsyncGroup::next) is awaited. Such a future may be dropped at any time:
/// the group keeps its state for the next call. A member that isn't needed any more closes its
/// connection and drops its data; once it is started again, the waits for its cache continue to
/// grow. A group that is dropped closes all connections.
///
/// ```no_run
/// use rtr_wire::{ClientOptions, Event};
/// use rtr_wire_tokio::{AsyncClient, AsyncGroup};
///
/// # async fn follow() -> Result<(), rtr_wire::TooManyMembers> {
/// let caches = ["rtr1.example:323", "rtr2.example:323"];
/// let clients = caches.map(|cache| AsyncClient::tcp(cache, ClientOptions::default()));
/// let mut group = AsyncGroup::new(clients)?;
/// loop {
///     match group.next().await {
///         (member, Event::Data { data, .. }) => {
///             println!("{}: {} payloads", caches[member], data.len());
///         }
///         (member, Event::Failed(error)) => eprintln!("{}: {error}", caches[member]),
///         _ => println!("no data"),
///     }
/// }
/// # }
/// ```
pub struct AsyncGroup<S> {
    preferred: Preferred,
    members: Vec<Member<S>>,
    /// When the group's clock began: at the first call.
    begun: Option<Instant>,
    timer: Timer,
    /// The last step with an event, and its member.
    last: Option<(usize, Step)>,
    /// Which members to stop and start, once the caller has all events before that.
    decided: Option<Decision>,
}

/// A client, and whether it runs.
struct Member<S> {
    client: AsyncClient<S>,
    runs: bool,
}

impl<S: AsyncRead + AsyncWrite + Unpin> AsyncGroup<S> {
    /// Returns a group of these clients, the most preferred first, with the default settings; an
    /// empty answer of the only member is data.
    ///
    /// # Errors
    ///
    /// For more than [`rtr_wire::Group::MOST`] clients.
    pub fn new(clients: impl IntoIterator<Item = AsyncClient<S>>) -> Result<Self, TooManyMembers> {
        AsyncGroup::of(None, clients)
    }

    /// Creates a group as [`AsyncGroup::new`] does, with these settings.
    ///
    /// # Errors
    ///
    /// As for [`AsyncGroup::new`].
    pub fn with_settings(
        settings: GroupSettings,
        clients: impl IntoIterator<Item = AsyncClient<S>>,
    ) -> Result<Self, TooManyMembers> {
        AsyncGroup::of(Some(settings), clients)
    }

    fn of(
        settings: Option<GroupSettings>,
        clients: impl IntoIterator<Item = AsyncClient<S>>,
    ) -> Result<Self, TooManyMembers> {
        let runs = |(number, client)| Member {
            client,
            runs: number == 0,
        };
        let members: Vec<Member<S>> = clients.into_iter().enumerate().map(runs).collect();
        Ok(AsyncGroup {
            preferred: Preferred::new(members.len(), settings, 0)?,
            members,
            begun: None,
            timer: Timer::default(),
            last: None,
            decided: None,
        })
    }

    /// Requests the present data: each client that runs queries its cache, or connects, before it
    /// is time.
    pub fn ask_now(&mut self) {
        let running = self.members.iter_mut().filter(|member| member.runs);
        running.for_each(|member| member.client.ask_now());
    }

    /// Returns the member whose data are shown, and the data, if there are some that haven't
    /// expired.
    pub fn data(&self) -> Option<(usize, &Data)> {
        let shown = self.preferred.shown();
        shown.filter(|(member, _)| self.members[*member].client.data().is_some())
    }

    /// Waits for the next event, and returns it with the number of its member: [`Event::Data`] of
    /// the member whose data are shown, [`Event::Dropped`] of the last one that had data, and each
    /// [`Event::Failed`], also [`ClientError::Empty`](rtr_wire::ClientError::Empty). If others'
    /// data are shown than before, the changes lead there from those, of whatever session and
    /// version they were.
    #[allow(clippy::missing_panics_doc)] // It can't: each such step has an event.
    pub async fn next(&mut self) -> (usize, Event<'_>) {
        self.last = None;
        Going(self).await;
        let last = self.last.as_ref();
        let event = last.and_then(|(member, step)| Some((*member, self.preferred.event(step)?)));
        event.expect("such a step has an event")
    }

    /// Runs until a step has an event.
    fn poll(&mut self, cx: &mut Context<'_>) -> Poll<()> {
        let begun = *self.begun.get_or_insert_with(Instant::now);
        loop {
            self.last = self.preferred.take_step();
            if self.last.is_some() {
                return Poll::Ready(());
            }
            if let Some(decided) = self.decided.take() {
                self.stop_and_start(&decided);
            }
            self.decided = self.poll_members(since(begun), cx);
            if self.decided.is_some() {
                continue;
            }
            match self.timer.poll(begun, self.preferred.wakes(), cx) {
                Poll::Ready(()) => self.decided = Some(self.preferred.tick(since(begun))),
                Poll::Pending => return Poll::Pending,
            }
        }
    }

    /// Returns the decision on the first member that took a step with an event.
    fn poll_members(&mut self, now: u64, cx: &mut Context<'_>) -> Option<Decision> {
        for (number, member) in self.members.iter_mut().enumerate() {
            if member.runs && member.client.poll(cx).is_ready() {
                let (step, data) = member.client.take_told()?;
                return Some(self.preferred.tell(now, number, step, data));
            }
        }
        None
    }

    /// Stops and starts members.
    fn stop_and_start(&mut self, decided: &Decision) {
        let first = decided.stop.unwrap_or(self.members.len());
        for member in &mut self.members[first..] {
            if std::mem::take(&mut member.runs) {
                member.client.stop();
            }
        }
        if let Some(member) = decided.start {
            self.members[member].runs = true;
        }
    }
}

impl<S> fmt::Debug for AsyncGroup<S> {
    fn fmt(&self, f: &mut fmt::Formatter<'_>) -> fmt::Result {
        let mut shown = f.debug_struct("AsyncGroup");
        shown
            .field("preferred", &self.preferred)
            .finish_non_exhaustive()
    }
}

/// The run of a group until its next event. Its state is in the group, so dropping this loses
/// nothing.
struct Going<'g, S>(&'g mut AsyncGroup<S>);

impl<S: AsyncRead + AsyncWrite + Unpin> Future for Going<'_, S> {
    type Output = ();

    fn poll(mut self: Pin<&mut Self>, cx: &mut Context<'_>) -> Poll<()> {
        self.0.poll(cx)
    }
}
