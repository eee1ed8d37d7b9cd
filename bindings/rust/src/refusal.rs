//! A refused unit with its bytes.

use crate::error;
use crate::faults::Fault;
use crate::units::ErrorReport;
use alloc::string::ToString;
use alloc::vec::Vec;
use core::fmt;

/// A unit that a `Reader` refused.
#[derive(Clone, Debug, PartialEq, Eq)]
pub struct Refusal {
    /// What is wrong.
    pub fault: Fault,
    /// The offset of the unit in the reader's input, in bytes.
    pub offset: u64,
    /// The bytes of the unit, as far as they were read; only the header if that is refused.
    pub unit: Vec<u8>,
}

impl Refusal {
    /// Returns the error report that the peer is owed, if it is owed one ([`Fault::report`]). It
    /// encloses the unit, and its text is that of the fault.
    #[must_use]
    pub fn report(&self) -> Option<ErrorReport<Vec<u8>>> {
        let text = self.fault.to_string();
        let report = self.fault.report(&self.unit, &text)?;
        Some(report.into_owned())
    }
}

impl fmt::Display for Refusal {
    fn fmt(&self, f: &mut fmt::Formatter<'_>) -> fmt::Result {
        self.fault.fmt_at(f, self.offset)
    }
}

impl error::Error for Refusal {}
