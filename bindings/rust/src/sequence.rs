//! Whole sequences in memory.

use crate::data::{Place, Side};
use crate::error::Error;
use crate::faults::Fault;
use crate::sys;
use core::fmt;

/// The progress of a normalising call: whole units, and the end of data if it was accepted.
#[derive(Clone, Copy, Debug, Default, PartialEq, Eq)]
pub struct Progress {
    /// The number of payload units that were read.
    pub units: u64,
    /// The number of these that were written.
    pub forms: u64,
    /// The number of bytes that were read.
    pub taken: usize,
    /// The number of bytes that were written.
    pub written: usize,
}

/// A normalising call stopped before an end of data: its progress, and the fault.
#[derive(Clone, Copy, Debug, PartialEq, Eq)]
pub struct Stopped {
    /// The progress until then.
    pub progress: Progress,
    /// The fault of the unit after the bytes that were read.
    pub fault: Fault,
}

impl fmt::Display for Stopped {
    fn fmt(&self, f: &mut fmt::Formatter<'_>) -> fmt::Result {
        self.fault.fmt_at(f, self.progress.taken as u64)
    }
}

impl Error for Stopped {}

/// Normalises the sequence at the start of the input: reads payload units up to an end of data, and
/// writes the form of each, and the end of data, to the output. It reads at most `limit` units,
/// including the end of data. It allocates nothing.
///
/// It succeeds if and only if the input begins with fewer than `limit` valid payload units and an
/// end of data, and the output is at least as long as their form. An output as long as the input
/// always suffices. Later bytes of the input aren't read.
///
/// ```
/// use rtr_wire::normalise;
///
/// // The end of data of version 0, serial 2 (RFC 6810 section 5.8).
/// let end = [0, 7, 0, 1, 0, 0, 0, 12, 0, 0, 0, 2];
/// let mut output = [0; 12];
/// let progress = normalise(&end, &mut output, 1)?;
/// assert_eq!((progress.units, progress.written), (0, 12));
/// assert_eq!(output, end);
/// # Ok::<(), rtr_wire::Stopped>(())
/// ```
///
/// # Errors
///
/// In this order: `TooMany`; `Short` to `Prefix`; `NoRoom`. `progress` has the whole units before
/// the fault, whose form is written. A caller can continue after them with a longer output, more
/// input or another limit.
pub fn normalise(input: &[u8], output: &mut [u8], limit: u64) -> Result<Progress, Stopped> {
    sys::normalise(input, output, limit)
}

/// Normalises a sequence as [`normalise`] does, for clients of a protocol version. Units that the
/// version doesn't have are checked and counted in `units`, but not written. All others, and the
/// end of data, are written in this version. An output 12 bytes longer than the input always
/// suffices, since an end of data has 12 bytes in version 0 and 24 in versions 1 and 2.
///
/// # Errors
///
/// Those of [`normalise`]. For a version above 2, `UnitVersion` comes before any other fault, and
/// nothing is read or written.
pub fn normalise_for(
    input: &[u8],
    output: &mut [u8],
    limit: u64,
    version: u8,
) -> Result<Progress, Stopped> {
    sys::normalise_for(input, output, limit, version)
}

/// A comparison stopped before an end of data: the fault, and its location.
#[derive(Clone, Copy, Debug, PartialEq, Eq, Hash)]
#[non_exhaustive]
pub struct NotCompared {
    /// The fault of the unit at this location.
    pub fault: Fault,
    /// The input that has this unit, and its offset there.
    pub place: Place,
}

impl fmt::Display for NotCompared {
    fn fmt(&self, f: &mut fmt::Formatter<'_>) -> fmt::Result {
        let side = match self.place.side {
            Side::First => "left",
            Side::Second => "right",
        };
        self.fault.fmt_at(f, self.place.offset as u64)?;
        write!(f, " of the {side} input")
    }
}

impl Error for NotCompared {}

/// Reports whether both inputs begin with sequences that mean the same, of fewer than `limit`
/// payload units each. It allocates nothing.
///
/// # Errors
///
/// One of `Short` to `TooMany`, for the unit at which [`normalise`] stops: that of the left input,
/// or if the left one is accepted, that of the right one.
pub fn same_meaning(left: &[u8], right: &[u8], limit: u64) -> Result<bool, NotCompared> {
    sys::same_meaning(left, right, limit)
}
