//! Why a cache ends a connection, or refuses data.

use crate::abi::{failure, named, time_rule};
use crate::cache_machine::{reason, reason_text, Serving};
use crate::client_error::write_report;
use crate::faults::ErrorCode;
use crate::sys;
use crate::units::{EndOfData, ErrorReport, Unit};
use std::fmt;
use std::io;
use std::string::{String, ToString};
use std::vec::Vec;

/// Why a [`Server`](crate::Server) ended a connection.
#[derive(Debug)]
#[non_exhaustive]
pub enum ServerError {
    /// The connection failed.
    Io(io::Error),
    /// The client exceeded a time limit.
    TooSlow,
    /// More than two newer data came while the client was being sent some.
    TooFarBehind,
    /// The limit of clients is reached, or the system has no descriptors left.
    TooManyClients,
    /// The client has data of an earlier session.
    OtherSession,
    /// A unit of the client is refused.
    Refused {
        /// The code of the report, if one is owed.
        code: Option<ErrorCode>,
        /// What is wrong.
        text: String,
    },
    /// The client sent an error report.
    Reported(ErrorReport<Vec<u8>>),
}

impl fmt::Display for ServerError {
    fn fmt(&self, f: &mut fmt::Formatter<'_>) -> fmt::Result {
        match self {
            ServerError::Io(error) => error.fmt(f),
            ServerError::TooSlow => f.write_str(&reason_text(reason::SLOW)),
            ServerError::TooFarBehind => f.write_str(failure::BEHIND),
            ServerError::TooManyClients => f.write_str(&reason_text(reason::FULL)),
            ServerError::OtherSession => f.write_str(&reason_text(reason::NEW_SESSION)),
            ServerError::Refused { text, .. } => f.write_str(text),
            ServerError::Reported(report) => {
                f.write_str(&reason_text(reason::REPORTED))?;
                write_report(f, report)
            }
        }
    }
}

impl std::error::Error for ServerError {
    fn source(&self) -> Option<&(dyn std::error::Error + 'static)> {
        match self {
            ServerError::Io(error) => Some(error),
            _ => None,
        }
    }
}

impl ServerError {
    /// Returns why the machine ends a connection; the input begins with the unit, at this offset in
    /// all received bytes. None if the client has closed it, between units.
    pub(crate) fn of(serving: &Serving, input: &[u8], offset: u64) -> Option<ServerError> {
        let text = match (serving.reason, Unit::first(input)) {
            (reason::LOST, _) => return None,
            (reason::SLOW, _) => return Some(ServerError::TooSlow),
            (reason::FULL, _) => return Some(ServerError::TooManyClients),
            (reason::NEW_SESSION, _) => return Some(ServerError::OtherSession),
            (reason::REPORTED, Ok((Unit::ErrorReport(report), _))) => {
                return Some(ServerError::Reported(report.into_owned()));
            }
            (reason::FAULTY, _) => sys::text_at(serving.status, serving.detail, offset).to_string(),
            (other, _) => reason_text(other),
        };
        let code = serving.reports.then_some(ErrorCode(serving.code));
        Some(ServerError::Refused { code, text })
    }
}

/// Why a [`Server`](crate::Server) doesn't serve new data. It still serves its present data.
#[derive(Clone, Copy, Debug, PartialEq, Eq)]
#[non_exhaustive]
pub enum UpdateError {
    /// The new data are of the same session as the present ones, but their serial number isn't
    /// after the present one (RFC 1982).
    SerialNotAfter {
        /// The serial number of the present data.
        present: u32,
        /// The serial number of the new data.
        new: u32,
    },
    /// The new data differ from the present ones only in the times of their end of data.
    NewTimings,
    /// The times of their end of data break this rule for caches (RFC 8210 section 6).
    Times(TimeRule),
    /// The cache left the session of the new data before, for another one (RFC 8210 section 5.1).
    SessionLeft,
    /// The cache doesn't save, and its first data were of another session.
    OtherSession,
    /// The new data are of a higher protocol version than the data of their session in the file,
    /// which another program saved.
    HigherVersion,
    /// The new data couldn't be saved, so they aren't served yet. Saving them is retried.
    NotSaved(SaveError),
}

/// Why data weren't saved: an error of the file system.
#[derive(Clone, Copy, Debug, PartialEq, Eq)]
pub struct SaveError {
    kind: io::ErrorKind,
    number: Option<i32>,
}

impl SaveError {
    /// Returns the kind of the error.
    #[must_use]
    pub fn kind(self) -> io::ErrorKind {
        self.kind
    }
}

impl From<&io::Error> for SaveError {
    fn from(error: &io::Error) -> SaveError {
        SaveError {
            kind: error.kind(),
            number: error.raw_os_error(),
        }
    }
}

impl From<SaveError> for io::Error {
    fn from(error: SaveError) -> io::Error {
        let of_kind = || error.kind.into();
        error
            .number
            .map_or_else(of_kind, io::Error::from_raw_os_error)
    }
}

impl fmt::Display for SaveError {
    fn fmt(&self, f: &mut fmt::Formatter<'_>) -> fmt::Result {
        io::Error::from(*self).fmt(f)
    }
}

impl std::error::Error for SaveError {}

/// A rule for the times of a cache (RFC 8210 section 6).
#[derive(Clone, Copy, Debug, PartialEq, Eq)]
#[non_exhaustive]
pub enum TimeRule {
    /// The refresh time is 1 to 86400 seconds.
    Refresh,
    /// The retry time is 1 to 7200 seconds.
    Retry,
    /// The expire time is 600 to 172800 seconds.
    Expire,
    /// The expire time is longer than the refresh time.
    AboveRefresh,
    /// The expire time is longer than the retry time.
    AboveRetry,
}

impl TimeRule {
    /// Returns the first rule that the times of this end of data break.
    pub(crate) fn broken_by(end: &EndOfData) -> Option<TimeRule> {
        match sys::end_rule(end) {
            time_rule::NONE => None,
            time_rule::REFRESH => Some(TimeRule::Refresh),
            time_rule::RETRY => Some(TimeRule::Retry),
            time_rule::EXPIRE => Some(TimeRule::Expire),
            time_rule::ABOVE_REFRESH => Some(TimeRule::AboveRefresh),
            _ => Some(TimeRule::AboveRetry),
        }
    }

    /// Returns the number of the rule.
    fn number(self) -> u8 {
        match self {
            TimeRule::Refresh => time_rule::REFRESH,
            TimeRule::Retry => time_rule::RETRY,
            TimeRule::Expire => time_rule::EXPIRE,
            TimeRule::AboveRefresh => time_rule::ABOVE_REFRESH,
            TimeRule::AboveRetry => time_rule::ABOVE_RETRY,
        }
    }
}

impl fmt::Display for TimeRule {
    fn fmt(&self, f: &mut fmt::Formatter<'_>) -> fmt::Result {
        f.write_str(&sys::name(named::TIME_RULE, self.number().into()))
    }
}

impl fmt::Display for UpdateError {
    fn fmt(&self, f: &mut fmt::Formatter<'_>) -> fmt::Result {
        match self {
            UpdateError::SerialNotAfter { present, new } => {
                write!(f, "{}: new {new}, present {present}", failure::OLD_SERIAL)
            }
            UpdateError::NewTimings => f.write_str(failure::OTHER_TIMES),
            UpdateError::Times(rule) => rule.fmt(f),
            UpdateError::SessionLeft => f.write_str(failure::SESSION_LEFT),
            UpdateError::OtherSession => f.write_str(failure::OTHER_SESSION),
            UpdateError::HigherVersion => f.write_str(failure::HIGHER_VERSION),
            UpdateError::NotSaved(error) => write!(f, "{}: {error}", failure::UNSERVED),
        }
    }
}

impl std::error::Error for UpdateError {
    fn source(&self) -> Option<&(dyn std::error::Error + 'static)> {
        match self {
            UpdateError::NotSaved(error) => Some(error),
            _ => None,
        }
    }
}
