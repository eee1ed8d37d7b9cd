//! Data of recordings and lists.

use crate::abi::{status, IPV4_SIZE};
use crate::calls;
use crate::data::{DataError, Place, Side};
use crate::faults::Fault;
use crate::owned_data::Data;
use alloc::vec;

/// The first size, at most, of the buffers for the data; they grow if needed.
const FIRST_CAPACITY: usize = 1 << 24;

/// The result of [`load_data`].
#[derive(Clone, Debug, PartialEq, Eq, Hash)]
#[non_exhaustive]
pub struct Loaded {
    /// The data after all whole answers.
    pub data: Data,
    /// Whether an answer was ignored, since the next one began before its end of data.
    pub has_cut: bool,
}

/// Loads the data that a recording or a list of units results in. It applies all answers one after
/// the other, each with or without a cache response, with payload units in any order. An answer
/// changes the data before it; after a reset query or a cache reset, and in another session, it
/// replaces them (RFC 8210 sections 5.1, 5.4 and 5.9). The input may have units of the router, too.
///
/// It allocates two buffers as long as the input, but at first at most 16 MiB, which grow if the
/// data are longer, and an index of the payload units of an answer.
///
/// # Errors
///
/// The fault of the first unit that is refused, with its offset:
///
/// - `Short` to `Prefix` for an invalid unit; `Short` also at the end of the input, if an answer
///   lacks its end of data or there is no answer;
/// - `Duplicate` or `UnknownRecord` for a change that RFC 8210 section 12 doesn't allow;
/// - `OtherVersion` for a payload unit or an end of data of another version than those before it in
///   its answer, or than the data that it changes;
/// - `OtherSession` for an end of data of another session than its answer (section 5.8);
/// - `OldSerial` for an end of data whose serial number comes before that of the data that its
///   answer changes (RFC 1982);
/// - `ResetInside` or `ReportInside` for a cache reset or an error report inside an answer.
///
/// ```
/// use rtr_wire::{load_data, Fault};
///
/// // A reset query, a cache response, a prefix and an end of data (RFC 8210 sections 5.4 to 5.8).
/// let recording = [
///     1, 2, 0, 0, 0, 0, 0, 8, //
///     1, 3, 0, 9, 0, 0, 0, 8, //
///     1, 4, 0, 0, 0, 0, 0, 20, 1, 23, 26, 0, 192, 0, 2, 0, 0, 1, 0, 15, //
///     1, 7, 0, 9, 0, 0, 0, 24, 0, 0, 0, 5, 0, 0, 0x0e, 0x10, 0, 0, 2, 0x58, 0, 0, 0x1c, 0x20,
/// ];
/// let loaded = load_data(&recording)?;
/// assert_eq!(loaded.data.as_bytes(), &recording[16..]);
/// assert!(!loaded.has_cut);
///
/// let error = load_data(&recording[..36]).unwrap_err();
/// assert_eq!(error.fault, Fault::Short);
/// assert_eq!(error.to_string(), "unexpected end of input, at byte 36");
/// # Ok::<(), rtr_wire::DataError>(())
/// ```
pub fn load_data(recording: &[u8]) -> Result<Loaded, DataError> {
    let mut capacity = recording.len().min(FIRST_CAPACITY);
    let mut entries = capacity / IPV4_SIZE;
    loop {
        let mut index = vec![0; entries];
        let (mut work, mut output) = (vec![0; capacity], vec![0; capacity]);
        let loaded = calls::load(recording, &mut index, &mut work, &mut output);
        match loaded.status {
            status::OK => {
                return Ok(Loaded {
                    data: Data::written(output, loaded.length),
                    has_cut: loaded.has_cut,
                })
            }
            status::NO_INDEX => entries = loaded.wanted.max(2 * entries),
            status::NO_ROOM => capacity = (2 * capacity).min(recording.len()),
            status => {
                return Err(DataError {
                    fault: Fault::of(status, loaded.detail),
                    place: Some(Place {
                        side: Side::First,
                        offset: loaded.offset,
                    }),
                })
            }
        }
    }
}
