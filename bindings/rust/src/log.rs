//! Log lines of clients and caches.

use crate::abi::failure;
use crate::owned_data::Data;
use crate::router::Event;
#[cfg(feature = "std")]
use crate::server_error::SaveError;
use core::fmt::Display;

/// The level of a log line.
#[derive(Clone, Copy, Debug, PartialEq, Eq, PartialOrd, Ord, Hash)]
#[non_exhaustive]
pub enum LogLevel {
    /// Details for debugging.
    Debug,
    /// Normal operation.
    Info,
    /// Something went wrong.
    Warn,
}

/// The fields of a log line, by name.
pub type LogFields<'a> = [(&'a str, &'a dyn Display)];

/// Writes a log line: a message, and its fields.
pub type Log = dyn Fn(LogLevel, &str, &LogFields<'_>) + Send + Sync;

impl Event<'_> {
    /// Logs it. Without memory for the changes their number is left out.
    pub fn log(&self, log: &Log) {
        match self {
            Event::Data { data, changes } => match changes.try_make() {
                Ok(()) => data.log(log, &[("changes", &changes.len())]),
                Err(_) => data.log(log, &[]),
            },
            Event::Dropped { changes } => match changes.try_make() {
                Ok(()) => log(
                    LogLevel::Warn,
                    "data dropped",
                    &[("changes", &changes.len())],
                ),
                Err(_) => log(LogLevel::Warn, "data dropped", &[]),
            },
            Event::Failed(error) => log(LogLevel::Warn, "failed", &[("error", error)]),
        }
    }
}

impl Data {
    /// Logs that a cache serves these data now, and warns of serial number 0: after a cut in the
    /// first answer BIRD 2.0 asks for the changes since serial number 0, and there are none.
    #[doc(hidden)]
    pub fn log_served(&self, log: &Log) {
        self.log(log, &[]);
        let end = self.end();
        if end.serial == 0 {
            let text = failure::WARNING_SERIAL_0;
            log(LogLevel::Warn, text, &[("session", &end.session)]);
        }
    }

    /// Logs new data.
    #[doc(hidden)]
    pub fn log(&self, log: &Log, others: &LogFields<'_>) {
        let (end, payloads) = (self.end(), self.len());
        let mut fields: alloc::vec::Vec<(&str, &dyn Display)> = alloc::vec![
            ("session", &end.session),
            ("serial", &end.serial),
            ("version", &end.version),
            ("payloads", &payloads),
        ];
        fields.extend_from_slice(others);
        log(LogLevel::Info, "data", &fields);
    }
}

/// Logs the result of a retry to save the data of a cache: they are served now, or aren't saved.
#[cfg(feature = "std")]
#[doc(hidden)]
pub fn log_retried(log: &Log, saved: Result<&Data, SaveError>) {
    match saved {
        Ok(data) => data.log_served(log),
        Err(error) => log(LogLevel::Warn, "not saved", &[("error", &error)]),
    }
}
