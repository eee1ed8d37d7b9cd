//! The proved machine of a cache's end. Times are in milliseconds.

pub(crate) use crate::abi::{reason, serving, Cache, Present, Serving};

use crate::abi::{self, named, CacheSettings};
use crate::calls;
use crate::sys;
use crate::units::EndOfData;
use std::string::{String, ToString};
use std::vec::Vec;

/// Returns the text of the report with which a cache ends a connection, for this reason.
pub(crate) fn reason_text(reason: u8) -> String {
    sys::name(named::REASON, reason.into()).to_string()
}

impl Present {
    /// Returns the session and serial number of data with this end.
    pub(crate) fn of(end: EndOfData) -> Present {
        Present {
            serial: end.serial,
            session: end.session,
            has: true,
        }
    }
}

impl Cache {
    /// Creates a connection with these settings.
    pub(crate) fn new(now: u64, settings: &CacheSettings) -> Cache {
        let mut cache = Cache::default();
        calls::cache_init(&mut cache, now, settings);
        cache
    }

    pub(crate) fn tick(&mut self, now: u64, present: Present) -> Serving {
        calls::cache_tick(self, now, &present)
    }

    pub(crate) fn full(&mut self, now: u64, present: Present) -> Serving {
        calls::cache_full(self, now, &present)
    }

    /// Records that the client has closed and all of its input was processed.
    pub(crate) fn lost(&mut self, now: u64, present: Present) -> Serving {
        calls::cache_lost(self, now, &present)
    }

    /// Processes the first unit of the input; `ended` if the client has closed. `known` are the
    /// serial numbers from which deltas are available.
    pub(crate) fn read(
        &mut self,
        now: u64,
        present: Present,
        known: &[u32],
        input: &[u8],
        ended: bool,
    ) -> Serving {
        calls::cache_read(self, now, &present, known, input, ended)
    }
}

impl Serving {
    /// Appends the first unit of an answer, or the report that is owed about the first unit of the
    /// input.
    pub(crate) fn append(&self, input: &[u8], output: &mut Vec<u8>) {
        if self.reports {
            return self.append_report(input, output);
        }
        let mut unit = [0; abi::SERIAL_SIZE];
        let length = calls::cache_unit(self, &mut unit);
        output.extend_from_slice(&unit[..length]);
    }

    /// Appends the report that is owed about the first unit of the input.
    fn append_report(&self, input: &[u8], output: &mut Vec<u8>) {
        let mut report = std::vec![0; abi::LONGEST_UNIT];
        if let (written, true) = calls::cache_report(self, input, &mut report) {
            output.extend_from_slice(&report[..written]);
        }
    }
}
