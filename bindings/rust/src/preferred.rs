//! The data of several routers by preference.

use crate::changes::Changes;
use crate::client_error::ClientError;
use crate::group::{Decision, Group, GroupSettings, News, Shown, TooManyMembers};
use crate::owned_data::Data;
use crate::router::{Event, Step};
use alloc::collections::VecDeque;
use alloc::vec::Vec;

/// The data in use of several routers by preference (RFC 8210 section 10), as a [`Group`] decides,
/// without sockets or a clock: the data of one of them, and the steps that lead there.
///
/// The caller runs the routers. It starts member 0, calls [`Preferred::tell`] with each step of a
/// running member, and [`Preferred::tick`] at the time [`Preferred::wakes`]; takes the steps of
/// [`Preferred::take_step`], until there are none; and then stops and starts members as decided. A
/// restarted member continues with [`Router::again`](crate::Router::again). Times are in
/// milliseconds, by a monotonic clock.
///
/// Its steps are [`Step::Data`] of the member whose data are used, [`Step::Dropped`] of the last
/// one that had data, and each [`Step::Failed`], also [`ClientError::Empty`]. After a switch to
/// another member the changes are those from the data used before, of any session and version.
#[derive(Debug)]
pub struct Preferred {
    group: Group,
    /// The data of each member.
    members: Vec<Option<Data>>,
    /// The member whose data are used, and the data.
    shown: Option<(usize, Data)>,
    pending: VecDeque<Pending>,
}

/// A step of a member, and the data that are used from then on; none if they don't change.
#[derive(Debug)]
struct Pending {
    member: usize,
    step: Step,
    shown: Option<Data>,
}

impl Preferred {
    /// Returns a group of this number of routers without data; the first one is started now. The
    /// default settings are those of a group, except that an answer without payloads counts as data
    /// if there is only one router.
    ///
    /// # Errors
    ///
    /// For more than [`Group::MOST`].
    pub fn new(
        members: usize,
        settings: Option<GroupSettings>,
        now: u64,
    ) -> Result<Preferred, TooManyMembers> {
        let settings = settings.unwrap_or_else(|| GroupSettings {
            empty_is_data: members == 1,
            ..GroupSettings::default()
        });
        Ok(Preferred {
            group: Group::new(members, settings, now)?,
            members: (0..members).map(|_| None).collect(),
            shown: None,
            pending: VecDeque::new(),
        })
    }

    /// Returns when to call [`Preferred::tick`] if nothing happens before; `u64::MAX` for never.
    #[must_use]
    pub fn wakes(&self) -> u64 {
        self.group.wakes()
    }

    /// Reports that time has passed. Starts the next member if the patience is over.
    pub fn tick(&mut self, now: u64) -> Decision {
        let decided = self.group.tick(now);
        self.forget(&decided);
        decided
    }

    /// Reports a step of a running member, what it means to the group
    /// ([`Router::take_news`](crate::Router::take_news)), and the member's data after it.
    ///
    /// # Panics
    ///
    /// If there is no such member.
    pub fn tell(
        &mut self,
        now: u64,
        member: usize,
        (step, news): (Step, News),
        data: Option<&Data>,
    ) -> Decision {
        self.members[member] = data.cloned();
        // The group asks only whether there are any.
        let payloads = usize::from(data.map_or(false, |data| !data.is_empty()));
        let decided = self.group.tell(now, member, news, payloads);
        if matches!(step, Step::Data(_)) && !self.group.counts(payloads) {
            self.push(member, Step::Failed(ClientError::Empty), None);
        }
        match decided.shown {
            Shown::Data(source) => self.show(source, member, step),
            Shown::Nothing => self.show_nothing(member, step),
            Shown::Same => self.pass(member, step),
        }
        self.forget(&decided);
        decided
    }

    /// Takes the next step, and its member; its data are used from now on.
    pub fn take_step(&mut self) -> Option<(usize, Step)> {
        let Pending {
            member,
            step,
            shown,
        } = self.pending.pop_front()?;
        match (&step, shown) {
            (Step::Data(_), Some(data)) => self.shown = Some((member, data)),
            (Step::Dropped(_), _) => self.shown = None,
            _ => {}
        }
        Some((member, step))
    }

    /// Returns the event of the step that [`Preferred::take_step`] returned last.
    #[must_use]
    pub fn event<'a>(&'a self, step: &'a Step) -> Option<Event<'a>> {
        match (step, &self.shown) {
            (Step::Data(changes), Some((_, data))) => Some(Event::Data { data, changes }),
            (Step::Dropped(changes), _) => Some(Event::Dropped { changes }),
            (Step::Failed(error), _) => Some(Event::Failed(error)),
            _ => None,
        }
    }

    /// Returns the member whose data are used, and the data. They may have expired since its last
    /// step.
    #[must_use]
    pub fn shown(&self) -> Option<(usize, &Data)> {
        self.shown.as_ref().map(|(member, data)| (*member, data))
    }

    /// Returns the data in use.
    #[must_use]
    pub fn into_shown(self) -> Option<Data> {
        self.shown.map(|(_, data)| data)
    }

    /// Drops the data of members that stop or start.
    fn forget(&mut self, decided: &Decision) {
        let first = decided.stop.unwrap_or(self.members.len());
        self.members[first..].fill(None);
        if let Some(member) = decided.start {
            self.members[member] = None;
        }
    }

    fn push(&mut self, member: usize, step: Step, shown: Option<Data>) {
        self.pending.push_back(Pending {
            member,
            step,
            shown,
        });
    }

    /// Passes a failure on.
    fn pass(&mut self, member: usize, step: Step) {
        if matches!(step, Step::Failed(_)) {
            self.push(member, step, None);
        }
    }

    /// Handles the loss of the data in use, also by an answer without payloads.
    fn show_nothing(&mut self, member: usize, step: Step) {
        match step {
            Step::Dropped(changes) | Step::Data(changes) => {
                self.push(member, Step::Dropped(changes), None);
            }
            step => self.pass(member, step),
        }
    }

    /// Uses the data of a member after a step of one. The changes are its own if its data were used
    /// before, or there were none.
    fn show(&mut self, source: usize, member: usize, step: Step) {
        let data = self.members[source].clone();
        let others = self.shown.as_ref().filter(|(before, _)| *before != source);
        let changes = match (others, step) {
            (Some((_, old)), step) => {
                let changes = Changes::between(Some(old.clone()), data.clone());
                self.pass(member, step);
                changes
            }
            (None, Step::Data(changes)) => Some(changes),
            (None, step) => {
                self.pass(member, step);
                None
            }
        };
        if let (Some(changes), Some(data)) = (changes, data) {
            self.push(source, Step::Data(changes), Some(data));
        }
    }
}
