//! Changes that own their bytes.

use crate::canonical::Canonical;
use crate::owned_data::Data;
use crate::units::{EndOfData, UnitRef};
use alloc::boxed::Box;
use alloc::collections::TryReserveError;
use alloc::vec::Vec;
use core::fmt;
use core::hash::{Hash, Hasher};
use core::ptr;
use core::sync::atomic::{AtomicPtr, Ordering};

/// Changes in canonical form, from [`order`](crate::order), [`Data::delta_to`] or an
/// [`Event`](crate::Event). They own their bytes; clones share them.
///
/// They are units that announce payloads, then units that withdraw some, both in the order of
/// [`Data`], and an end of data, all of one version. No payload and no customer of an ASPA occurs
/// twice.
///
/// Those of an event are computed when they are first used. Without memory for them, each method
/// except [`Changes::try_make`] panics; the data of the event are available anyway.
pub struct Changes {
    /// Null until they are computed; not changed afterwards.
    computed: AtomicPtr<Canonical>,
    /// The old and the new data, unless the changes were computed at once.
    ends: Option<(Data, Option<Data>)>,
}

impl Changes {
    /// Wraps computed changes.
    pub(crate) fn of(computed: Canonical) -> Changes {
        Changes {
            computed: AtomicPtr::new(Box::into_raw(Box::new(computed))),
            ends: None,
        }
    }

    /// Returns the changes from old data to new data of any versions and sessions, either of which
    /// may be missing; none if both are.
    pub(crate) fn between(old: Option<Data>, new: Option<Data>) -> Option<Changes> {
        match (old, new) {
            (Some(old), new) => Some(Changes {
                computed: AtomicPtr::new(ptr::null_mut()),
                ends: Some((old, new)),
            }),
            // The changes from no data are the data.
            (None, new) => new.map(|new| Changes::of(new.0)),
        }
    }

    /// Computes the changes of an event, unless they are computed already.
    ///
    /// # Errors
    ///
    /// If there is no memory for them. Later calls try again.
    pub fn try_make(&self) -> Result<(), TryReserveError> {
        self.try_computed().map(|_| ())
    }

    fn try_computed(&self) -> Result<&Canonical, TryReserveError> {
        let computed = self.computed.load(Ordering::Acquire);
        if !computed.is_null() {
            // SAFETY: the pointer is that of a box that lives as long as these changes.
            return Ok(unsafe { &*computed });
        }
        let (old, new) = self
            .ends
            .as_ref()
            .expect("changes that aren't computed have both ends");
        let computed = old.0.difference_to(new.as_ref().map(|new| &new.0))?;
        Ok(self.keep(Box::into_raw(Box::new(computed))))
    }

    /// Keeps the first result if several threads compute the changes at once.
    fn keep(&self, computed: *mut Canonical) -> &Canonical {
        let none = ptr::null_mut();
        let (on_success, on_failure) = (Ordering::AcqRel, Ordering::Acquire);
        match self
            .computed
            .compare_exchange(none, computed, on_success, on_failure)
        {
            // SAFETY: the box lives as long as these changes.
            Ok(_) => unsafe { &*computed },
            // SAFETY: the other box lives as long, too; nobody else has this one.
            Err(kept) => unsafe {
                drop(Box::from_raw(computed));
                &*kept
            },
        }
    }

    fn computed(&self) -> &Canonical {
        self.try_computed().expect("memory for the changes")
    }

    /// Returns the changes in canonical form.
    pub(crate) fn into_canonical(self) -> Canonical {
        self.computed().clone()
    }

    /// Returns the bytes: payload units, and the end of data.
    #[must_use]
    pub fn as_bytes(&self) -> &[u8] {
        &self.computed().bytes
    }

    /// Returns the bytes.
    #[must_use]
    pub fn into_bytes(self) -> Vec<u8> {
        let computed = self.computed().clone();
        drop(self);
        computed.into_bytes()
    }

    /// Returns the payload units, in order: first announcements, then withdrawals.
    pub fn units(&self) -> impl Iterator<Item = UnitRef<'_>> + Clone + '_ {
        self.computed().units()
    }

    /// Returns the end of data, with the version, the session and the serial number.
    #[must_use]
    pub fn end(&self) -> EndOfData {
        self.computed().end
    }

    /// Returns how many payloads are announced or withdrawn.
    #[must_use]
    pub fn len(&self) -> usize {
        self.computed().payloads()
    }

    /// Reports whether no payload is announced or withdrawn.
    #[must_use]
    pub fn is_empty(&self) -> bool {
        self.computed().unit_bytes().is_empty()
    }
}

impl Drop for Changes {
    fn drop(&mut self) {
        let computed = *self.computed.get_mut();
        if !computed.is_null() {
            // SAFETY: the pointer is that of a box, which nobody else has.
            drop(unsafe { Box::from_raw(computed) });
        }
    }
}

impl Clone for Changes {
    fn clone(&self) -> Changes {
        match &self.ends {
            Some((old, new)) if self.computed.load(Ordering::Acquire).is_null() => Changes {
                computed: AtomicPtr::new(ptr::null_mut()),
                ends: Some((old.clone(), new.clone())),
            },
            _ => Changes::of(self.computed().clone()),
        }
    }
}

impl fmt::Debug for Changes {
    fn fmt(&self, f: &mut fmt::Formatter<'_>) -> fmt::Result {
        let mut shown = f.debug_tuple("Changes");
        match self.try_computed() {
            Ok(computed) => shown.field(computed),
            Err(error) => shown.field(&error),
        };
        shown.finish()
    }
}

impl PartialEq for Changes {
    fn eq(&self, other: &Changes) -> bool {
        self.computed() == other.computed()
    }
}

impl Eq for Changes {}

impl Hash for Changes {
    fn hash<H: Hasher>(&self, state: &mut H) {
        self.computed().hash(state);
    }
}
