//! Caches by preference.

use crate::abi::{self, group_shown, status, GroupAnswer, MOST_MEMBERS};
#[cfg(feature = "alloc")]
use crate::abi::{group_status, Todo};
use crate::calls;
use crate::sys::{self, milliseconds};
use core::fmt;
use core::time::Duration;

/// Decides which of several members are asked, and whose data are used, by preference (RFC 8210
/// section 10). A member follows a cache, as a `Router` or a `Client` does; member 0 is preferred
/// most.
///
/// It holds no data. Its caller starts member 0, calls one method for each event of a member, and
/// [`Group::tick`] at the time [`Group::wakes`]; and carries out each decision. Events of a member
/// that doesn't run are ignored. Times are in milliseconds, by a monotonic clock.
///
/// A member is current from a whole answer until its next failure. The data of the most preferred
/// current member are used; while none is current, those of the member that was current last, until
/// they expire. A member runs while each one before it, since its start and its last whole answer,
/// has failed or was silent for the patience.
///
/// ```
/// use rtr_wire::{Group, GroupSettings, Shown};
///
/// let mut group = Group::new(2, GroupSettings::default(), 0)?;
/// assert_eq!(group.fails(10, 0).start, Some(1)); // it can't be reached: the next one is asked
/// assert_eq!(group.shows(20, 1, 700).shown, Shown::Data(1)); // it has 700 payloads
/// let decided = group.shows(30, 0, 700);
/// assert_eq!((decided.shown, decided.stop), (Shown::Data(0), Some(1)));
/// assert_eq!(group.best(), Some(0));
/// # Ok::<(), rtr_wire::TooManyMembers>(())
/// ```
#[derive(Clone, Copy, Debug, PartialEq, Eq, Hash)]
pub struct Group(abi::Group);

/// The settings of a [`Group`].
#[derive(Clone, Copy, Debug, PartialEq, Eq, Hash)]
pub struct GroupSettings {
    /// How long a member may have no whole answer before the next one is started too, while none is
    /// current (default 5 seconds).
    pub patience: Duration,
    /// Whether a whole answer without payloads counts as data, and not as a failure that drops them
    /// (default false).
    pub empty_is_data: bool,
}

impl Default for GroupSettings {
    fn default() -> Self {
        let mut usual = abi::GroupSettings::default();
        calls::group_usual(&mut usual);
        GroupSettings {
            patience: Duration::from_millis(usual.patience.into()),
            empty_is_data: usual.empty_is_data,
        }
    }
}

/// A [`Group`] would have more than [`Group::MOST`] members.
#[derive(Clone, Copy, Debug, PartialEq, Eq, Hash)]
pub struct TooManyMembers;

impl fmt::Display for TooManyMembers {
    fn fmt(&self, f: &mut fmt::Formatter<'_>) -> fmt::Result {
        f.write_str(&sys::name(
            abi::named::STATUS,
            status::TOO_MANY_MEMBERS.into(),
        ))
    }
}

#[cfg(feature = "std")]
impl std::error::Error for TooManyMembers {}

/// A decision of a [`Group`], which its caller carries out in this order.
#[derive(Clone, Copy, Debug, PartialEq, Eq, Hash)]
pub struct Decision {
    /// Which data to use.
    pub shown: Shown,
    /// Stop this member and all after it, and drop their data.
    pub stop: Option<usize>,
    /// Start this member, without data.
    pub start: Option<usize>,
}

/// The data that a [`Group`] uses.
#[derive(Clone, Copy, Debug, PartialEq, Eq, Hash)]
pub enum Shown {
    /// The same as before.
    Same,
    /// The present data of this member.
    Data(usize),
    /// No data.
    Nothing,
}

impl Group {
    /// The most members of a group.
    pub const MOST: usize = MOST_MEMBERS;

    /// Returns a group of this number of members without data; the first one is started now.
    ///
    /// # Errors
    ///
    /// For more than [`Group::MOST`].
    pub fn new(members: usize, settings: GroupSettings, now: u64) -> Result<Group, TooManyMembers> {
        let settings = abi::GroupSettings {
            patience: milliseconds(settings.patience),
            empty_is_data: settings.empty_is_data,
        };
        let mut group = abi::Group::default();
        match calls::group_init(&mut group, &settings, members, now) {
            status::OK => Ok(Group(group)),
            _ => Err(TooManyMembers),
        }
    }

    /// Returns when to call [`Group::tick`] if nothing happens before; `u64::MAX` for never.
    #[must_use]
    pub fn wakes(&self) -> u64 {
        calls::group_wakes(&self.0)
    }

    /// Reports that time has passed. Starts the next member if the patience is over.
    pub fn tick(&mut self, now: u64) -> Decision {
        Decision::of(&calls::group_tick(&mut self.0, now))
    }

    /// Returns the member whose data are used.
    #[must_use]
    pub fn best(&self) -> Option<usize> {
        let (member, has) = calls::group_best(&self.0);
        has.then_some(member)
    }

    /// Reports whether a whole answer with this number of payloads counts as data. Otherwise it is
    /// a failure, [`ClientError::Empty`](crate::ClientError::Empty).
    #[must_use]
    pub fn counts(&self, payloads: usize) -> bool {
        calls::group_counts(&self.0, payloads)
    }

    /// Reports what a member's router did; its data have this number of payloads.
    #[cfg(feature = "alloc")]
    pub(crate) fn tell(
        &mut self,
        now: u64,
        member: usize,
        news: News,
        payloads: usize,
    ) -> Decision {
        let todo = match news.0 {
            Some(todo) => todo,
            None => return Decision::NONE,
        };
        let (answer, status) = calls::group_tell(&mut self.0, now, member, &todo, payloads);
        assert!(
            status == group_status::TOLD,
            "a group refuses a todo: status {status}"
        );
        Decision::of(&answer)
    }

    /// Reports that a member has the data of a whole answer, with this number of payloads; they may
    /// be the same as before.
    pub fn shows(&mut self, now: u64, member: usize, payloads: usize) -> Decision {
        Decision::of(&calls::group_shows(&mut self.0, now, member, payloads))
    }

    /// Reports that a member lost its data. This is also a failure: [`Group::fails`] for the same
    /// end of a connection changes nothing.
    pub fn drops(&mut self, now: u64, member: usize) -> Decision {
        Decision::of(&calls::group_drops(&mut self.0, now, member))
    }

    /// Reports that a member failed, or that its cache has no data. Its present data stay.
    pub fn fails(&mut self, now: u64, member: usize) -> Decision {
        Decision::of(&calls::group_fails(&mut self.0, now, member))
    }
}

/// What a step of a [`Router`](crate::Router) means to a group, for
/// [`Preferred::tell`](crate::Preferred::tell): at most one event. A router returns it by
/// [`Router::take_news`](crate::Router::take_news).
#[cfg(feature = "alloc")]
#[derive(Clone, Copy, Debug, Default)]
pub struct News(pub(crate) Option<Todo>);

impl Decision {
    /// Nothing to do.
    #[cfg(feature = "alloc")]
    const NONE: Decision = Decision {
        shown: Shown::Same,
        stop: None,
        start: None,
    };

    fn of(answer: &GroupAnswer) -> Decision {
        Decision {
            shown: match answer.shown {
                group_shown::DATA => Shown::Data(answer.member),
                group_shown::NOTHING => Shown::Nothing,
                _ => Shown::Same,
            },
            stop: answer.stops.then_some(answer.stop),
            start: answer.starts.then_some(answer.start),
        }
    }
}

#[cfg(test)]
mod tests {
    use super::{Decision, Group, GroupSettings, Shown, TooManyMembers};
    use core::time::Duration;
    use std::string::ToString;

    fn decided(shown: Shown, stop: Option<usize>, start: Option<usize>) -> Decision {
        Decision { shown, stop, start }
    }

    fn group(members: usize) -> Group {
        Group::new(members, GroupSettings::default(), 0).unwrap()
    }

    #[test]
    fn the_current_one_or_the_last_whole_answer() {
        use Shown::{Data, Nothing, Same};
        let mut group = group(3);
        assert_eq!(group.fails(0, 0), decided(Same, None, Some(1)));
        assert_eq!(group.shows(0, 1, 5), decided(Data(1), None, None));
        assert_eq!(group.fails(0, 1), decided(Same, None, Some(2)));
        assert_eq!(group.shows(0, 2, 5), decided(Data(2), None, None));
        assert_eq!(group.drops(0, 1), decided(Same, None, None));
        assert_eq!(group.shows(0, 0, 5), decided(Data(0), Some(1), None));
        assert_eq!(group.shows(0, 2, 5), decided(Same, None, None));
        assert_eq!(group.fails(0, 0), decided(Same, None, Some(1)));
        assert_eq!(group.shows(0, 0, 5), decided(Data(0), Some(1), None));
        assert_eq!(group.shows(0, usize::MAX, 5), decided(Same, None, None));
        assert_eq!(group.best(), Some(0));
        assert_eq!(group.drops(0, 0), decided(Nothing, None, Some(1)));
        assert_eq!(group.best(), None);
    }

    #[test]
    fn empty_answers() {
        use Shown::{Data, Nothing};
        let mut strict = group(2);
        assert_eq!(strict.shows(0, 0, 1), decided(Data(0), None, None));
        assert!(strict.counts(1) && !strict.counts(0));
        assert_eq!(strict.shows(0, 0, 0), decided(Nothing, None, Some(1)));
        let settings = GroupSettings {
            empty_is_data: true,
            ..GroupSettings::default()
        };
        let mut lax = Group::new(2, settings, 0).unwrap();
        assert!(lax.counts(0));
        assert_eq!(lax.shows(0, 0, 0), decided(Data(0), None, None));
    }

    #[test]
    fn a_loss_and_its_failure_are_one() {
        use Shown::{Data, Nothing, Same};
        let mut group = group(3);
        assert_eq!(group.shows(0, 0, 5), decided(Data(0), None, None));
        assert_eq!(group.drops(0, 0), decided(Nothing, None, Some(1)));
        assert_eq!(group.fails(0, 0), decided(Same, None, None));
        assert_eq!(group.fails(0, 1), decided(Same, None, Some(2)));
        assert_eq!(group.shows(0, 2, 5), decided(Data(2), None, None));
        assert_eq!(group.drops(0, 2), decided(Nothing, None, None));
        assert_eq!(group.fails(0, 2), decided(Same, None, None));
    }

    #[test]
    fn patience() {
        let usual = GroupSettings::default();
        assert_eq!(usual.patience, Duration::from_secs(5));
        assert!(!usual.empty_is_data);
        let mut group = Group::new(3, usual, 1000).unwrap();
        assert_eq!(group.wakes(), 6000);
        assert_eq!(group.tick(5999).start, None);
        assert_eq!(group.tick(6000).start, Some(1));
        assert_eq!(group.wakes(), 11000);
        let _ = group.shows(7000, 1, 5);
        assert_eq!(group.wakes(), u64::MAX);
        assert_eq!(group.tick(20000).start, None);
    }

    #[test]
    fn at_most_this_number() {
        for members in [Group::MOST + 1, usize::MAX] {
            let refused = Group::new(members, GroupSettings::default(), 0);
            assert_eq!(refused, Err(TooManyMembers));
        }
        assert_eq!(TooManyMembers.to_string(), "too many members");
        let mut most = group(Group::MOST);
        for member in 0..Group::MOST - 1 {
            assert_eq!(most.fails(0, member).start, Some(member + 1));
        }
        assert_eq!(most.fails(0, Group::MOST - 1).start, None);
        assert_eq!(group(0).shows(0, 0, 5), decided(Shown::Same, None, None));
    }
}
