//! Data and changes in canonical form.

use crate::error::Error;
use crate::faults::Fault;
use crate::sys;
use crate::units::ErrorReport;
use core::fmt;

/// One of the two inputs of a call.
#[derive(Clone, Copy, Debug, PartialEq, Eq, Hash)]
pub enum Side {
    /// The data; of two data the old ones; of two inputs the left one; or the only input.
    First,
    /// The changes; of two data the new ones; of two inputs the right one.
    Second,
}

/// The location of the unit at fault.
#[derive(Clone, Copy, Debug, PartialEq, Eq, Hash)]
pub struct Place {
    /// The input that has it.
    pub side: Side,
    /// Its offset in that input, in bytes.
    pub offset: usize,
}

/// Why a call on data or changes failed. It changed nothing.
#[derive(Clone, Copy, Debug, PartialEq, Eq, Hash)]
#[non_exhaustive]
pub struct DataError {
    /// What is wrong.
    pub fault: Fault,
    /// The location of the unit at fault; none for `UnitVersion` and `OtherSession` of two inputs
    /// of different versions or sessions, and for `NoRoom` and `NoIndex`.
    pub place: Option<Place>,
}

impl DataError {
    /// Returns the error report that the peer is owed, if it is owed one; `input` is the input at
    /// fault. See [`Fault::report`]. A duplicate has code 7, a withdrawal of an unknown record code
    /// 6 (RFC 8210 sections 5.11 and 12).
    #[must_use]
    pub fn report<'a>(&self, input: &'a [u8], text: &'a str) -> Option<ErrorReport<&'a [u8]>> {
        let unit = input.get(self.place?.offset..)?;
        self.fault.report(unit, text)
    }
}

impl fmt::Display for DataError {
    fn fmt(&self, f: &mut fmt::Formatter<'_>) -> fmt::Result {
        match self.place {
            Some(place) => self.fault.fmt_at(f, place.offset as u64),
            None => self.fault.fmt(f),
        }
    }
}

impl Error for DataError {}

/// Writes the delta from old data to new data (RFC 8210 section 8.2), and returns its length:
/// changes in canonical form, with the end of data of the new data. An output as long as both
/// inputs together always suffices. It allocates nothing.
///
/// Both are data in canonical form, as in `Data`; bytes after an end of data are ignored.
///
/// # Errors
///
/// In this order: `Short` to `Prefix` or `NotCanonical`, the first fault of the old data, or else
/// of the new; `UnitVersion` with the version of the new data, if the old are of another;
/// `OtherSession`; `NoRoom`. After `NoRoom` the content of the output is unspecified; after other
/// errors it is unchanged.
pub fn delta_into(old: &[u8], new: &[u8], output: &mut [u8]) -> Result<usize, DataError> {
    sys::delta(old, new, output)
}

/// Writes the changes from old data to new data of any versions and sessions, and returns their
/// length: as [`delta_into`], in the higher of both versions, and with the end of data of the new
/// data in that version; that of version 0 gets the recommended timing in a later one. An empty
/// slice stands for no data: then all of the other is announced or withdrawn, with its end of data.
///
/// # Errors
///
/// Those of [`delta_into`], except `UnitVersion` for another version and `OtherSession`; `Short` of
/// the new data if both slices are empty.
pub fn changes_between(old: &[u8], new: &[u8], output: &mut [u8]) -> Result<usize, DataError> {
    sys::changes_between(old, new, output)
}

/// Applies changes to data, and writes the result in canonical form, with the end of data of the
/// changes; returns its length. Either all changes are applied, or none. An announced ASPA replaces
/// the one of its customer. An output as long as both inputs together always suffices. It allocates
/// nothing.
///
/// Both are in canonical form, as in `Data` and `Changes`; bytes after their ends of data are
/// ignored. [`order_into`] brings changes into that form, and [`apply_in_order`] takes any order.
///
/// ```
/// use rtr_wire::apply_into;
///
/// // Data without payloads, and changes that announce a prefix (RFC 8210 sections 5.6 and 5.8).
/// let data = [0, 7, 0, 1, 0, 0, 0, 12, 0, 0, 0, 2];
/// let changes = [
///     0, 4, 0, 0, 0, 0, 0, 20, 1, 23, 26, 0, 192, 0, 2, 0, 0, 1, 0, 15, //
///     0, 7, 0, 1, 0, 0, 0, 12, 0, 0, 0, 3,
/// ];
/// let mut output = [0; 44];
/// assert_eq!(apply_into(&data, &changes, &mut output)?, 32);
/// assert_eq!(output[..32], changes);
/// # Ok::<(), rtr_wire::DataError>(())
/// ```
///
/// # Errors
///
/// In this order: `Short` to `Prefix` or `NotCanonical`, the first fault of the data, or else of
/// the changes; `UnitVersion` with the version of the changes, if the data are of another;
/// `OtherSession`; `Duplicate` or `UnknownRecord` for the first change that isn't allowed;
/// `NoRoom`. After `NoRoom` the content of the output is unspecified; after other errors it is
/// unchanged.
pub fn apply_into(data: &[u8], changes: &[u8], output: &mut [u8]) -> Result<usize, DataError> {
    sys::apply(data, changes, output)
}

/// Applies the changes of an answer to data, one after the other, and writes the result in
/// canonical form, with the end of data of the changes; returns its length. Either all changes are
/// applied, or none. An announced ASPA replaces the one of its customer. An output as long as both
/// inputs together always suffices. It allocates nothing.
///
/// The data are in canonical form, as in `Data`; the changes are a sequence, as a cache sends it
/// after its response. Bytes after their ends of data are ignored. The index is working memory with
/// an entry for each payload unit of the changes: `changes.len() / 12` entries always suffice. Its
/// content afterwards is unspecified.
///
/// ```
/// use rtr_wire::{apply_in_order, Fault};
///
/// // Data without payloads, and changes that withdraw a prefix and announce it (RFC 8210 sections
/// // 5.6 and 5.8).
/// let data = [0, 7, 0, 1, 0, 0, 0, 12, 0, 0, 0, 2];
/// let changes = [
///     0, 4, 0, 0, 0, 0, 0, 20, 0, 23, 26, 0, 192, 0, 2, 0, 0, 1, 0, 15, //
///     0, 4, 0, 0, 0, 0, 0, 20, 1, 23, 26, 0, 192, 0, 2, 0, 0, 1, 0, 15, //
///     0, 7, 0, 1, 0, 0, 0, 12, 0, 0, 0, 3,
/// ];
/// let (mut index, mut output) = ([0; 2], [0; 64]);
/// let error = apply_in_order(&data, &changes, &mut index, &mut output).unwrap_err();
/// assert_eq!(error.fault, Fault::UnknownRecord);
/// assert_eq!(apply_in_order(&data, &changes[20..], &mut index, &mut output)?, 32);
/// assert_eq!(output[..32], changes[20..]);
/// # Ok::<(), rtr_wire::DataError>(())
/// ```
///
/// # Errors
///
/// In this order:
///
/// - `Short` to `Prefix` or `NotCanonical`, the first fault of the data, or else of the changes, in
///   which `NotCanonical` is a unit of another version than those before it;
/// - `UnitVersion` with the version of the changes, if the data are of another; `OtherSession`;
/// - `NoIndex`;
/// - `Duplicate` or `UnknownRecord` for the first unit that announces a payload which is already
///   present, or withdraws one which isn't (RFC 8210 section 12);
/// - `NoRoom`.
///
/// After `NoRoom` the content of the output is unspecified; after other errors it is unchanged.
pub fn apply_in_order(
    data: &[u8],
    changes: &[u8],
    index: &mut [usize],
    output: &mut [u8],
) -> Result<usize, DataError> {
    sys::apply_in_order(data, changes, index, output)
}

/// Writes the net effect of the changes in the sequence at the start of the input, in canonical
/// form, and returns its length. Caches send deltas in any order, but [`apply_into`] takes them
/// only in canonical form; [`apply_in_order`] takes them as they are. An output as long as the
/// input always suffices. It allocates nothing.
///
/// The index is working memory with an entry for each payload unit: `input.len() / 12` entries
/// always suffice. Its content afterwards is unspecified.
///
/// ```
/// use rtr_wire::order_into;
///
/// // A prefix is announced and withdrawn (RFC 8210 section 5.6), so nothing is left.
/// let input = [
///     0, 4, 0, 0, 0, 0, 0, 20, 1, 23, 26, 0, 192, 0, 2, 0, 0, 1, 0, 15, //
///     0, 4, 0, 0, 0, 0, 0, 20, 0, 23, 26, 0, 192, 0, 2, 0, 0, 1, 0, 15, //
///     0, 7, 0, 1, 0, 0, 0, 12, 0, 0, 0, 3,
/// ];
/// let (mut index, mut output) = ([0; 2], [0; 52]);
/// assert_eq!(order_into(&input, &mut index, &mut output)?, 12);
/// assert_eq!(output[..12], input[40..]);
/// # Ok::<(), rtr_wire::DataError>(())
/// ```
///
/// # Errors
///
/// In this order:
///
/// - `Short` to `Prefix`, or `NotCanonical` for a unit of another version than those before it: the
///   first fault of the input;
/// - `NoIndex`;
/// - `Duplicate` or `UnknownRecord` for a payload that is announced, or withdrawn, twice in a row,
///   and `Undecided` for an ASPA that is first announced and in the end withdrawn: the first of
///   these in the order of payloads;
/// - `NoRoom`.
///
/// After `NoRoom` the content of the output is unspecified; after other errors it is unchanged.
pub fn order_into(
    input: &[u8],
    index: &mut [usize],
    output: &mut [u8],
) -> Result<usize, DataError> {
    sys::order(input, index, output)
}
