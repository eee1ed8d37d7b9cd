//! Why a client ends a connection.

use crate::abi::{cause, client_failure, failure, named, Todo, HEADER_SIZE};
use crate::data::{DataError, Place, Side};
use crate::error;
use crate::faults::{ErrorCode, Fault};
use crate::refusal::Refusal;
use crate::sys;
use crate::units::{unit_size, ErrorReport, Unit};
use alloc::vec::Vec;
use core::fmt;

/// Writes the text of a cause.
fn write_cause(f: &mut fmt::Formatter<'_>, cause: u8) -> fmt::Result {
    f.write_str(&sys::name(named::CAUSE, cause.into()))
}

/// Writes what a peer's report says.
pub(crate) fn write_report(
    f: &mut fmt::Formatter<'_>,
    report: &ErrorReport<Vec<u8>>,
) -> fmt::Result {
    let text = report.parts.as_ref().map_or(&[][..], |parts| &parts.text);
    f.write_str(": ")?;
    f.write_str(&sys::report_text(report.code.0, text))
}

/// A breach of the rules of a session by a cache.
#[derive(Clone, Copy, Debug, PartialEq, Eq)]
#[non_exhaustive]
pub enum Breach {
    /// A unit of another version than the session (RFC 8210 section 7).
    OtherVersion = cause::OTHER_VERSION as isize,
    /// An answer of a higher version than the query.
    HigherVersion = cause::HIGHER_VERSION as isize,
    /// A unit of another session than the data (RFC 8210 section 5.1).
    OtherSession = cause::OTHER_SESSION as isize,
    /// The serial number of the end of data comes before that of the query.
    SerialBack = cause::OLD_SERIAL as isize,
    /// The data changed, but not the serial number.
    OtherData = cause::OTHER_DATA as isize,
    /// A unit of this kind isn't allowed at this point.
    Misplaced = cause::OUT_OF_PLACE as isize,
    /// The version doesn't have payloads of this kind.
    NoPayload = cause::NO_SUCH_PAYLOAD as isize,
}

impl fmt::Display for Breach {
    fn fmt(&self, f: &mut fmt::Formatter<'_>) -> fmt::Result {
        write_cause(f, *self as u8)
    }
}

/// Why a [`Client`](crate::Client) ended a connection, or has no answer yet.
#[derive(Debug)]
#[non_exhaustive]
pub enum ClientError {
    /// The connection failed, or couldn't be opened.
    #[cfg(feature = "std")]
    Io(std::io::Error),
    /// The cache closed the connection.
    Closed,
    /// The cache exceeded a time limit.
    TooSlow,
    /// The answer has more bytes or units than are allowed.
    TooLong,
    /// The cache didn't refresh the data in time, and they were dropped (RFC 8210 section 6).
    Expired,
    /// There is no memory for an answer. The data stay, and the client asks again.
    NoMemory,
    /// The cache has no payloads, which a [`Group`](crate::Group) doesn't accept as data.
    Empty,
    /// The client was stopped.
    Stopped,
    /// A unit is refused.
    Refused(Refusal),
    /// The changes are refused, or contradict one another.
    Data {
        /// Why.
        error: DataError,
        /// The bytes of the unit at fault, if one is.
        unit: Vec<u8>,
    },
    /// The rules of a session don't allow a unit.
    Breach {
        /// Why.
        reason: Breach,
        /// The code of the report that was sent about it (RFC 8210 section 12).
        code: ErrorCode,
        /// The bytes of the unit.
        unit: Vec<u8>,
    },
    /// The cache has no data yet, as its error report says (RFC 8210 section 8.4). The client asks
    /// again.
    NoData(ErrorReport<Vec<u8>>),
    /// The cache sent another error report.
    Reported(ErrorReport<Vec<u8>>),
}

impl fmt::Display for ClientError {
    fn fmt(&self, f: &mut fmt::Formatter<'_>) -> fmt::Result {
        match self {
            #[cfg(feature = "std")]
            ClientError::Io(error) => error.fmt(f),
            ClientError::Closed => write_cause(f, cause::LOST),
            ClientError::TooSlow => write_cause(f, cause::SLOW),
            ClientError::TooLong => write_cause(f, cause::TOO_LONG),
            ClientError::Expired => write_cause(f, cause::EXPIRED),
            ClientError::NoMemory => f.write_str(failure::NO_MEMORY),
            ClientError::Empty => f.write_str(failure::EMPTY),
            ClientError::Stopped => f.write_str(failure::STOPPED),
            ClientError::Refused(refusal) => refusal.fmt(f),
            ClientError::Data { error, .. } => error.fmt(f),
            ClientError::Breach { reason, .. } => reason.fmt(f),
            ClientError::NoData(report) | ClientError::Reported(report) => {
                write_cause(f, cause::REPORTED)?;
                write_report(f, report)
            }
        }
    }
}

impl error::Error for ClientError {
    fn source(&self) -> Option<&(dyn error::Error + 'static)> {
        match self {
            #[cfg(feature = "std")]
            ClientError::Io(error) => Some(error),
            _ => None,
        }
    }
}

impl ClientError {
    /// Returns the error report that the cache sent, of [`ClientError::NoData`] and
    /// [`ClientError::Reported`].
    #[must_use]
    pub fn reported(&self) -> Option<&ErrorReport<Vec<u8>>> {
        match self {
            ClientError::NoData(report) | ClientError::Reported(report) => Some(report),
            _ => None,
        }
    }

    /// Returns the error for a failure, one of [`client_failure`]. The input begins with the unit
    /// or the change at fault.
    pub(crate) fn of(failure: u8, todo: &Todo, input: &[u8]) -> ClientError {
        match failure {
            client_failure::SLOW => ClientError::TooSlow,
            client_failure::TOO_LONG => ClientError::TooLong,
            client_failure::REFUSED if todo.cause == cause::FAULTY => {
                let fault = Fault::of(todo.status, todo.detail);
                ClientError::Refused(Refusal {
                    fault,
                    offset: todo.position,
                    unit: fault.of_unit(input).to_vec(),
                })
            }
            client_failure::REFUSED => ClientError::refused(todo, input),
            client_failure::BREACH => ClientError::breach(todo, input),
            client_failure::REPORTED => ClientError::of_report(input, ClientError::Reported),
            client_failure::EXPIRED => ClientError::Expired,
            client_failure::MEMORY => ClientError::NoMemory,
            _ => ClientError::Closed,
        }
    }

    /// Returns the error for a unit that breaks the rules of a session.
    fn breach(todo: &Todo, input: &[u8]) -> ClientError {
        let reason = match todo.cause {
            cause::OUT_OF_PLACE => Breach::Misplaced,
            cause::NO_SUCH_PAYLOAD => Breach::NoPayload,
            cause::OTHER_VERSION => Breach::OtherVersion,
            cause::HIGHER_VERSION => Breach::HigherVersion,
            cause::OTHER_SESSION => Breach::OtherSession,
            cause::OLD_SERIAL => Breach::SerialBack,
            _ => Breach::OtherData,
        };
        ClientError::Breach {
            reason,
            code: ErrorCode(todo.code),
            unit: whole(input).to_vec(),
        }
    }

    /// Returns this error for the report at the start of the input.
    pub(crate) fn of_report(
        input: &[u8],
        error: fn(ErrorReport<Vec<u8>>) -> ClientError,
    ) -> ClientError {
        match Unit::first(input) {
            Ok((Unit::ErrorReport(report), _)) => error(report.into_owned()),
            _ => ClientError::Closed, // no report: its caller passes one
        }
    }

    /// Returns why the changes of an answer are refused. The input begins with the one at fault.
    fn refused(todo: &Todo, input: &[u8]) -> ClientError {
        ClientError::Data {
            error: DataError {
                fault: Fault::of(todo.status, todo.detail),
                place: Some(Place {
                    side: Side::Second,
                    offset: todo.offset,
                }),
            },
            unit: whole(input).to_vec(),
        }
    }
}

/// Returns the unit at the start of the input, as far as it came; only the header if that is
/// refused.
fn whole(input: &[u8]) -> &[u8] {
    let size = unit_size(input).ok().flatten().unwrap_or(HEADER_SIZE);
    &input[..size.min(input.len())]
}
