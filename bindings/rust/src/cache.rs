//! The data of a cache, without sockets.

use crate::abi::HistoryLimits;
use crate::cache_machine::Present;
use crate::options::ServerOptions;
use crate::owned_data::Data;
use crate::saving::Retries;
use crate::server_error::{SaveError, TimeRule, UpdateError};
use crate::snapshot::Snapshot;
use crate::store::Store;
use crate::units::EndOfData;
use std::fmt;
use std::io::{self, ErrorKind};
use std::mem::take;
use std::path::Path;
use std::sync::{Arc, Mutex, MutexGuard, PoisonError};

/// The data of a cache, and the changes to them from earlier data, without sockets. Each of its
/// clients is a [`Served`](crate::Served).
///
/// The proved stores of the archive decide what is served and kept: a cache never serves two data
/// under one session and serial number, over any number of starts and power cuts, if it saves
/// ([`Cache::save_to`]). A cache that doesn't save has data of one session, which has to be new at
/// each start.
///
/// Any thread may call it. No reader waits while new data are taken and saved.
#[derive(Default)]
pub struct Cache {
    state: Arc<State>,
    retries: Retries,
}

/// What a cache shares with the thread that retries to save.
#[derive(Default)]
struct State {
    options: Arc<ServerOptions>,
    newest: Mutex<Option<Arc<Snapshot>>>,
    store: Mutex<Store>,
    retried: Mutex<Option<Arc<Retried>>>,
}

/// Gets the result of each retry of a save: the data that are served now.
type Retried = dyn Fn(Result<&Data, SaveError>) + Send + Sync;

/// A time in milliseconds, by a monotonic clock, and the data of a [`Cache`] at that time.
#[derive(Clone, Debug)]
pub struct Moment {
    pub(crate) now: u64,
    pub(crate) options: Arc<ServerOptions>,
    pub(crate) newest: Option<Arc<Snapshot>>,
}

impl Cache {
    /// Returns a cache without data, which doesn't save.
    #[must_use]
    pub fn new(options: ServerOptions) -> Self {
        let state = State {
            options: Arc::new(options),
            ..State::default()
        };
        Cache {
            state: Arc::new(state),
            retries: Retries::default(),
        }
    }

    /// Returns the limits of the cache.
    pub fn options(&self) -> &ServerOptions {
        &self.state.options
    }

    /// Returns this time with the present data of the cache.
    pub fn at(&self, now: u64) -> Moment {
        Moment {
            now,
            options: Arc::clone(&self.state.options),
            newest: locked(&self.state.newest).clone(),
        }
    }

    /// Returns the end of the data that are served, with session and serial number.
    pub fn end(&self) -> Option<EndOfData> {
        let newest = locked(&self.state.newest);
        newest.as_ref().map(|newest| newest.end())
    }

    /// Saves data to this file from now on, before they are served: writes and syncs one beside it,
    /// `.new`, renames that, and syncs the folder. Serves the data that the file has from an
    /// earlier run, with the deltas to them, and returns these data, in version 2 unless another
    /// program saved them in a lower one; none if there is no file. It syncs the folder first,
    /// since that run may have ended before it did. Call it once, before the first data. No other
    /// cache may use the file.
    ///
    /// If the file was lost or is refused, the next data have to be of a session that the cache
    /// never used.
    ///
    /// # Errors
    ///
    /// Those of reading and syncing; `InvalidData` for a file that was changed or damaged, or whose
    /// data [`Cache::update`] would refuse; `AlreadyExists` if the cache has data, or a file. Then
    /// nothing changes.
    pub fn save_to(&self, path: impl AsRef<Path>) -> io::Result<Option<Data>> {
        let mut store = locked(&self.state.store);
        if store.has_begun() {
            let text = "the cache has data, or a file";
            return Err(io::Error::new(ErrorKind::AlreadyExists, text));
        }
        let opened = Store::open(path.as_ref())?;
        let data = opened.history().map(|history| history.to_data());
        if let Some(data) = &data {
            let checked = check_times(data);
            checked.map_err(|error| io::Error::new(ErrorKind::InvalidData, error))?;
        }
        *store = opened;
        self.state.serve(&store);
        Ok(data)
    }

    /// Serves these data from now on, with the session and serial number of their end of data.
    /// Returns whether they differ from the present data: then call
    /// [`Served::next`](crate::Served::next) of each connection.
    ///
    /// A cache that saves does so first, and blocks on the file system. If that fails, the present
    /// data are still served, and a thread retries after 1, 2, 4 .. seconds, up to a minute, until
    /// it succeeds, or other data come; see [`Cache::on_retry`].
    ///
    /// # Errors
    ///
    /// `NewTimings`; `SerialNotAfter`, also for the same payloads with an earlier serial number;
    /// `Times` if RFC 8210 section 6 doesn't allow their times; `SessionLeft`, `OtherSession`;
    /// `HigherVersion`; or `NotSaved`.
    pub fn update(&self, data: Data) -> Result<bool, UpdateError> {
        check_times(&data)?;
        let mut store = locked(&self.state.store);
        let is_new = store.take(&data, &self.state.limits())?;
        drop(data);
        if let Err(error) = store.save() {
            self.retry(&mut store);
            return Err(UpdateError::NotSaved((&error).into()));
        }
        if take(&mut store.is_retried) {
            self.retries.cancel();
        }
        if is_new {
            self.state.serve(&store);
        }
        Ok(is_new)
    }

    /// Lets the next data of a cache that doesn't save be of another session (RFC 8210 section
    /// 5.1), which it never used, at no earlier start either. The present data are served until
    /// then. A cache that saves knows the sessions that it left, and ignores this call.
    pub fn change_session(&self) {
        locked(&self.state.store).change_session();
    }

    /// Sets the function that gets the result of each retry of a save: the data that are served
    /// now, or why they still aren't saved. When there are data, call
    /// [`Served::next`](crate::Served::next) of each connection.
    pub fn on_retry(&self, retried: impl Fn(Result<&Data, SaveError>) + Send + Sync + 'static) {
        *locked(&self.state.retried) = Some(Arc::new(retried));
    }

    /// Ends the retries of a save that failed, for good. Dropping a cache does so.
    pub fn stop_saving(&self) {
        self.retries.stop();
    }

    /// Starts to retry, if a thread doesn't do so already. Without one the next data are saved.
    fn retry(&self, store: &mut Store) {
        if !store.is_retried {
            let state = Arc::clone(&self.state);
            let started = self.retries.start(move || state.is_saved_again());
            store.is_retried = started.is_ok();
        }
    }

    /// Begins with the stores of a new cache, and saves them to this file, which doesn't exist.
    #[cfg(test)]
    pub(crate) fn begin_anew(&self, path: &Path) {
        *locked(&self.state.store) = Store::open(path).expect("no file");
    }

    /// Drops the deltas from a serial number and from earlier ones.
    #[cfg(test)]
    pub(crate) fn forget(&self, serial: u32) {
        let mut newest = locked(&self.state.newest);
        let newest = newest.as_mut().and_then(Arc::get_mut).expect("a snapshot");
        let index = newest.known.iter().position(|known| *known == serial);
        newest.known.truncate(index.expect("it is known"));
    }
}

impl Drop for Cache {
    fn drop(&mut self) {
        self.stop_saving();
    }
}

impl fmt::Debug for Cache {
    fn fmt(&self, f: &mut fmt::Formatter<'_>) -> fmt::Result {
        let mut shown = f.debug_struct("Cache");
        shown.field("options", self.options());
        shown.field("end", &self.end()).finish_non_exhaustive()
    }
}

impl State {
    /// Returns which steps back are kept.
    fn limits(&self) -> HistoryLimits {
        let settings = self.options.settings();
        HistoryLimits {
            time: settings.keep,
            bytes: settings.keep_bytes,
        }
    }

    /// Shows clients what is served.
    fn serve(&self, store: &Store) {
        let before = locked(&self.newest).clone();
        let history = store.history();
        let after = |history| Snapshot::after(before.as_deref(), history, &self.options);
        *locked(&self.newest) = history.map(after).map(Arc::new);
    }

    /// Retries to save. Returns whether nothing waits any more.
    fn is_saved_again(&self) -> bool {
        let mut store = locked(&self.store);
        if !store.waits() {
            return true;
        }
        let saved = store.save();
        if saved.is_ok() {
            store.is_retried = false;
            self.serve(&store);
        }
        drop(store);
        if let Some(retried) = locked(&self.retried).clone() {
            match &saved {
                Ok(()) => retried(Ok(&self.data())),
                Err(error) => retried(Err(error.into())),
            }
        }
        saved.is_ok()
    }

    /// Returns a copy of the data that are served.
    fn data(&self) -> Data {
        let newest = locked(&self.newest).clone();
        let newest = newest.expect("data that were saved are served");
        Data::parse(&newest.data()).expect("they are in canonical form")
    }
}

impl Moment {
    /// Returns the session and serial number of the newest data.
    pub(crate) fn present(&self) -> Present {
        let newest = self.newest.as_ref();
        newest.map_or_else(Present::default, |newest| newest.present)
    }

    /// Returns the number of the newest data, which are numbered as they come, from 1 on; 0 without
    /// data.
    pub(crate) fn number(&self) -> u64 {
        self.newest.as_ref().map_or(0, |newest| newest.number)
    }
}

/// Checks that RFC 8210 section 6 allows a cache the times of these data.
fn check_times(data: &Data) -> Result<(), UpdateError> {
    match TimeRule::broken_by(&data.end()) {
        Some(rule) => Err(UpdateError::Times(rule)),
        None => Ok(()),
    }
}

/// Locks a mutex, even if a thread has panicked with it: its content is always consistent.
pub(crate) fn locked<T>(mutex: &Mutex<T>) -> MutexGuard<'_, T> {
    mutex.lock().unwrap_or_else(PoisonError::into_inner)
}
