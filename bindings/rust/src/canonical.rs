//! Bytes in canonical form.

use crate::abi::LONGEST_END;
use crate::calls;
use crate::faults::Fault;
use crate::iter::Units;
use crate::sequence::normalise_for;
use crate::sys;
use crate::units::{EndOfData, Unit, UnitRef};
use alloc::collections::TryReserveError;
use alloc::sync::Arc;
use alloc::vec;
use alloc::vec::Vec;
use core::hash::{Hash, Hasher};
use core::sync::atomic::{AtomicUsize, Ordering};

/// Bytes in canonical form that end with an end of data. Clones share them.
#[derive(Clone, Debug, PartialEq, Eq, Hash)]
pub(crate) struct Canonical {
    pub(crate) bytes: Arc<Vec<u8>>,
    pub(crate) end: EndOfData,
    counted: Count,
}

impl Canonical {
    /// Wraps the first `length` of these bytes, which are in canonical form.
    pub(crate) fn new(mut bytes: Vec<u8>, length: usize) -> Self {
        bytes.truncate(length);
        bytes.shrink_to_fit();
        Canonical::of(bytes)
    }

    /// Wraps these bytes, which are in canonical form. If much of their capacity is unused, they
    /// are moved to a vector of the exact size, if memory allows.
    pub(crate) fn shrunk(bytes: Vec<u8>) -> Self {
        let (length, mut exact) = (bytes.len(), Vec::new());
        if bytes.capacity() - length > length / 8 && exact.try_reserve_exact(length).is_ok() {
            exact.extend_from_slice(&bytes);
            return Canonical::of(exact);
        }
        Canonical::of(bytes)
    }

    /// Wraps these bytes, which are in canonical form.
    pub(crate) fn of(bytes: Vec<u8>) -> Self {
        let end = match Unit::first(&bytes[calls::end_offset(&bytes)..]) {
            Ok((Unit::EndOfData(end), _)) => end,
            _ => panic!("the archive wrote an end of data"),
        };
        Canonical {
            bytes: Arc::new(bytes),
            end,
            counted: Count::new(),
        }
    }

    /// Returns the bytes, which aren't copied unless they are shared.
    pub(crate) fn into_bytes(self) -> Vec<u8> {
        Arc::try_unwrap(self.bytes).unwrap_or_else(|shared| shared.to_vec())
    }

    /// Returns the number of payload units, which the first call counts.
    pub(crate) fn payloads(&self) -> usize {
        let known = self.counted.0.load(Ordering::Relaxed);
        if known != Count::NONE {
            return known;
        }
        let (mut payloads, mut rest) = (0, self.unit_bytes());
        while let Ok(size) = sys::unit_size(rest) {
            rest = &rest[size..];
            payloads += 1;
        }
        self.counted.0.store(payloads, Ordering::Relaxed);
        payloads
    }

    /// Returns the bytes of the payload units.
    pub(crate) fn unit_bytes(&self) -> &[u8] {
        &self.bytes[..calls::end_offset(&self.bytes)]
    }

    /// Returns the same data for clients of a version, without what it can't carry.
    pub(crate) fn for_version(&self, version: u8) -> Result<Canonical, Fault> {
        if version == self.end.version {
            return Ok(self.clone());
        }
        let mut bytes = vec![0; self.bytes.len() + LONGEST_END];
        match normalise_for(&self.bytes, &mut bytes, u64::MAX, version) {
            Ok(progress) => Ok(Canonical::new(bytes, progress.written)),
            Err(stopped) => Err(stopped.fault),
        }
    }

    /// Returns the payload units, without the end of data.
    pub(crate) fn units(&self) -> impl Iterator<Item = UnitRef<'_>> + Clone + '_ {
        Units::new(self.unit_bytes()).filter_map(Result::ok)
    }

    /// Returns the changes from these data to the new data. Versions and sessions may differ. If
    /// there are no new data, the changes withdraw everything. They are in the higher of the two
    /// versions, so that payloads that the lower one can't carry are withdrawn.
    ///
    /// # Errors
    ///
    /// If there is no memory for it.
    pub(crate) fn difference_to(
        &self,
        new: Option<&Canonical>,
    ) -> Result<Canonical, TryReserveError> {
        let new = new.map_or(&[][..], |new| &new.bytes);
        changes_between(&self.bytes, new)
    }
}

/// How many payloads there are, once they were counted; it isn't compared.
#[derive(Debug)]
struct Count(AtomicUsize);

impl Count {
    const NONE: usize = usize::MAX;

    fn new() -> Count {
        Count(AtomicUsize::new(Count::NONE))
    }
}

impl Clone for Count {
    fn clone(&self) -> Count {
        Count(AtomicUsize::new(self.0.load(Ordering::Relaxed)))
    }
}

impl PartialEq for Count {
    fn eq(&self, _other: &Count) -> bool {
        true
    }
}

impl Eq for Count {}

impl Hash for Count {
    fn hash<H: Hasher>(&self, _state: &mut H) {}
}

/// Returns the changes from old data to new data of any versions and sessions; empty bytes stand
/// for no data.
pub(crate) fn changes_between(old: &[u8], new: &[u8]) -> Result<Canonical, TryReserveError> {
    let most = old.len() + new.len();
    let mut changes = Vec::new();
    changes.try_reserve_exact(most / 8)?; // enough for most changes
    let mut result = sys::append_changes(old, new, &mut changes);
    if matches!(result, Err(error) if error.fault == Fault::NoRoom) {
        changes = Vec::new();
        changes.try_reserve_exact(most)?;
        result = sys::append_changes(old, new, &mut changes);
    }
    result.expect("the call takes both data");
    Ok(Canonical::shrunk(changes))
}
