//! What a cache serves and saves, over the proved calls on stores and histories.

use crate::abi::{self, failure, room, stores_status as status};
use crate::abi::{HistoryLimits, StoreHead, Stores, StoresAnswer, StoresState};
use crate::abi::{HIGHEST_VERSION, LONGEST_END, SHORTEST_PAYLOAD};
use crate::body::{Body, Memory};
use crate::cache_machine::Present;
use crate::calls;
use crate::owned_data::Data;
use crate::saving::{forget_new, replace, sync_folder};
use crate::sequence::normalise_for;
use crate::server_error::UpdateError;
use crate::units::{EndOfData, Unit, UnitRef};
use std::borrow::Cow;
use std::fs::read;
use std::io::{self, ErrorKind};
use std::mem::size_of;
use std::path::{Path, PathBuf};
use std::sync::Arc;
use std::time::{SystemTime, UNIX_EPOCH};
use std::vec;
use std::vec::Vec;

/// A few bytes more than the data and the steps of a store: a first guess of its length.
const SLACK: usize = 64;

/// The buffers that a call works in and writes to.
#[derive(Default)]
struct Rooms {
    index: Vec<usize>,
    buffer: Vec<u8>,
    spare: Vec<u8>,
    output: Vec<u8>,
}

impl Rooms {
    /// Repeats a call, each time with a longer buffer, until no buffer is too short.
    fn call(&mut self, mut call: impl FnMut(&mut Rooms) -> StoresAnswer) -> StoresAnswer {
        loop {
            let answer = call(self);
            if answer.status != status::NO_ROOM {
                return answer;
            }
            match answer.room {
                room::INDEX => self.index = vec![0; answer.wanted],
                room::BUFFER => self.buffer = vec![0; answer.wanted],
                room::SPARE => self.spare = vec![0; answer.wanted],
                _ => self.output = vec![0; answer.wanted],
            }
        }
    }

    /// Returns the first bytes of the output, without its unused capacity.
    fn into_output(self, length: usize) -> Vec<u8> {
        let mut output = self.output;
        output.truncate(length);
        output.shrink_to_fit();
        output
    }
}

/// The stores of a cache: the served one, and the pending one, which must be saved first.
#[derive(Debug, Default)]
pub(crate) struct Store {
    /// None before the first data of a cache that doesn't save.
    stores: Option<Stores>,
    has_begun: bool,
    /// Whether the next data may be of another session, though they aren't saved.
    may_change: bool,
    buffers: [Arc<Memory>; 2],
    /// Where stores are saved.
    path: Option<PathBuf>,
    /// Whether a thread retries to save.
    pub(crate) is_retried: bool,
}

impl Store {
    /// Serves what the file holds, if there is one. New stores are saved to it.
    pub(crate) fn open(path: &Path) -> io::Result<Store> {
        let mut stores = Stores::default();
        let mut first = Arc::default();
        match read(path) {
            Ok(file) => {
                first = Arc::new(unsealed(file)?);
                stores = started(&first)?;
                // The last run may have ended before the file's name was on the disk.
                sync_folder(path)?;
            }
            Err(error) if error.kind() == ErrorKind::NotFound => calls::stores_new(&mut stores),
            Err(error) => return Err(error),
        }
        forget_new(path);
        Ok(Store {
            stores: Some(stores),
            has_begun: true,
            may_change: false,
            buffers: [first, Arc::default()],
            path: Some(path.to_path_buf()),
            is_retried: false,
        })
    }

    /// Reports whether it has, or had, data or a file.
    pub(crate) fn has_begun(&self) -> bool {
        self.has_begun
    }

    /// Lets a cache that doesn't save have data of another session.
    pub(crate) fn change_session(&mut self) {
        self.may_change = self.path.is_none();
    }

    /// Returns the stores that take data of this session: new ones for the first data of a session
    /// of a cache that doesn't save.
    fn stores_for(&self, session: u16) -> Stores {
        let present = self.history().map(|history| history.end().session);
        let changes = self.may_change && present != Some(session);
        match self.stores {
            Some(stores) if !changes => stores,
            _ => unsaved(session),
        }
    }

    /// Takes new data; returns whether they differ from the served ones. They replace data
    /// that wait to be saved, and wait too; a cache that doesn't save serves them at once.
    pub(crate) fn take(
        &mut self,
        data: &Data,
        limits: &HistoryLimits,
    ) -> Result<bool, UpdateError> {
        let end = data.end();
        let mut stores = self.stores_for(end.session);
        calls::stores_give_up(&mut stores);
        let state = self.state(&stores);
        let (served, other) = places(&state);
        let mut rooms = self.rooms(&state, data.as_bytes().len());
        let answer = self.call_take(&mut stores, data, limits, &mut rooms);
        let taken = match answer.status {
            status::OK => Memory::of(rooms.into_output(answer.length)),
            status::SAME_DATA => Memory::default(),
            refused => return Err(self.refusal(refused, end)),
        };
        self.stores = Some(stores);
        self.has_begun = true;
        self.may_change = false;
        self.buffers[other] = Arc::new(taken);
        if answer.status == status::OK && !self.waits() {
            self.buffers[served] = Arc::default();
        }
        Ok(answer.status == status::OK)
    }

    /// Writes the store of new data to the output.
    fn call_take(
        &self,
        stores: &mut Stores,
        data: &Data,
        limits: &HistoryLimits,
        rooms: &mut Rooms,
    ) -> StoresAnswer {
        let state = self.state(stores);
        let served = &self.buffers[places(&state).0];
        let end = data.end();
        let data = in_version(data.as_bytes(), end.version, self.kept_in(end));
        let now = milliseconds_since_1970();
        rooms.call(|rooms| {
            let mut answer = StoresAnswer::default();
            let served = (served.as_ptr() as *mut u8, served.len());
            let output = (rooms.output.as_mut_ptr(), rooms.output.len());
            let (first, second) = if state.second {
                (output, served)
            } else {
                (served, output)
            };
            // SAFETY: all slices are live, of these lengths, and never null. What the call writes
            // overlaps nothing, and it doesn't write to the buffer of the store that is served.
            #[rustfmt::skip]
            unsafe {
                abi::rtr_stores_take_nonnull(
                    stores, data.as_ptr(), data.len(), now, limits,
                    rooms.buffer.as_mut_ptr(), rooms.buffer.len(),
                    rooms.spare.as_mut_ptr(), rooms.spare.len(),
                    first.0, first.1, second.0, second.1, &mut answer,
                );
            };
            answer
        })
    }

    /// Returns the version in which data with this end are kept.
    fn kept_in(&self, new: EndOfData) -> u8 {
        let (mut present, mut version) = (Present::default(), 0);
        if let Some(end) = self.history().map(|history| history.end()) {
            present = Present::of(end);
            version = end.version;
        }
        calls::stores_version(&present, version, new.session, new.version)
    }

    /// Buffers to take data of this length, enough for most changes.
    fn rooms(&self, state: &StoresState, length: usize) -> Rooms {
        let history = self.history_of(state);
        let steps = state.length - history.map_or(0, |history| history.data().len());
        let most_changes = (state.length + length) / 8;
        let spare = length + most_changes + steps + SLACK;
        Rooms {
            index: Vec::new(),
            buffer: vec![0; most_changes],
            spare: vec![0; spare],
            output: vec![0; state.offset + spare + SLACK],
        }
    }

    /// Returns why data with this end are refused.
    fn refusal(&self, refused: u8, new: EndOfData) -> UpdateError {
        match refused {
            status::OTHER_SESSION => UpdateError::OtherSession,
            status::SESSION_LEFT => UpdateError::SessionLeft,
            status::OTHER_TIMES => UpdateError::NewTimings,
            status::OTHER_VERSION => UpdateError::HigherVersion,
            status::OLD_SERIAL => UpdateError::SerialNotAfter {
                present: self.history().map_or(0, |history| history.end().serial),
                new: new.serial,
            },
            other => panic!("canonical data are refused: {}", other),
        }
    }

    /// Saves the pending store, which is then served.
    pub(crate) fn save(&mut self) -> io::Result<()> {
        let (stores, path) = match (&mut self.stores, &self.path) {
            (Some(stores), Some(path)) => (stores, path),
            _ => return Ok(()),
        };
        let state = state_of(stores, &self.buffers);
        if !state.waits {
            return Ok(());
        }
        let (served, other) = places(&state);
        let store = &self.buffers[other][..state.taken];
        let head = calls::store_seal(store);
        replace(path, &[&head.bytes, store])?;
        calls::stores_saved(stores);
        self.buffers[served] = Arc::default();
        Ok(())
    }

    /// Reports whether a store waits to be saved.
    pub(crate) fn waits(&self) -> bool {
        let stores = self.stores.as_ref();
        stores.map_or(false, |stores| self.state(stores).waits)
    }

    /// Returns the history that is served.
    pub(crate) fn history(&self) -> Option<History> {
        self.history_of(&self.state(self.stores.as_ref()?))
    }

    fn history_of(&self, state: &StoresState) -> Option<History> {
        let buffer = Arc::clone(&self.buffers[places(state).0]);
        let history = Body::part(buffer, state.offset, state.length);
        state.serves.then_some(History(history))
    }

    fn state(&self, stores: &Stores) -> StoresState {
        state_of(stores, &self.buffers)
    }
}

/// Returns the index of the buffer with the store that is served, and of the other one.
fn places(state: &StoresState) -> (usize, usize) {
    (usize::from(state.second), usize::from(!state.second))
}

/// Returns what the two buffers hold.
fn state_of(stores: &Stores, [first, second]: &[Arc<Memory>; 2]) -> StoresState {
    calls::stores_state(stores, first, second).0
}

/// Returns the stores of a cache that doesn't save, whose data are all of this session.
fn unsaved(session: u16) -> Stores {
    let mut stores = Stores::default();
    calls::stores_unsaved(&mut stores, session);
    stores
}

/// Returns the stores of a cache at a start, if this is a whole store.
fn started(store: &Memory) -> io::Result<Stores> {
    let mut stores = Stores::default();
    let answer = Rooms::default().call(|rooms| {
        let (index, buffer) = (&mut rooms.index, &mut rooms.buffer);
        calls::stores_start(&mut stores, store.len(), store, index, buffer)
    });
    match answer.status {
        status::OK => Ok(stores),
        _ => Err(damaged()),
    }
}

/// Returns the store of a file, also of the form before 0.3.0 (`rtrkept1`), if the head's checksum
/// matches.
fn unsealed(mut file: Vec<u8>) -> io::Result<Memory> {
    if calls::store_open(&file) {
        file.drain(..size_of::<StoreHead>());
        return Ok(Memory::of(file));
    }
    let mut store = vec![0; file.len()];
    match calls::store_open_old(&file, &mut store).status {
        status::OK => Ok(Memory::of(store)),
        _ => Err(damaged()),
    }
}

/// Returns the error for a file that was changed or damaged.
fn damaged() -> io::Error {
    io::Error::new(ErrorKind::InvalidData, failure::DAMAGED)
}

/// The history that a cache serves: its data, and the steps back to earlier ones.
#[derive(Clone, Debug)]
pub(crate) struct History(Body);

impl History {
    /// Returns the present data, in canonical form.
    pub(crate) fn data(&self) -> Body {
        part(&self.0).expect("a history has data")
    }

    /// Returns a copy of the present data.
    pub(crate) fn to_data(&self) -> Data {
        Data::parse(&self.data()).expect("a history has data in canonical form")
    }

    /// Returns the end of the present data.
    pub(crate) fn end(&self) -> EndOfData {
        end_of(&self.data())
    }

    /// Returns the empty changes since the present data, as encoded for a version: as `since`
    /// returns them, but without reading the data.
    pub(crate) fn nothing(&self, version: u8) -> Vec<u8> {
        let (data, end) = (self.data(), self.end());
        let unit: UnitRef = Unit::EndOfData(end);
        let bytes = &data[data.len() - unit.size()..];
        in_version(bytes, end.version, version).into_owned()
    }

    /// Returns the serial numbers of the earlier data to which steps lead back, the latest first.
    pub(crate) fn known(&self) -> Vec<u32> {
        let mut known = vec![0; calls::history_serials(&self.0, &mut []).wanted];
        calls::history_serials(&self.0, &mut known);
        known
    }

    /// Returns the changes since a known serial number, or the present one, as encoded for a
    /// version.
    pub(crate) fn since(&self, serial: u32, version: u8) -> Vec<u8> {
        let present = self.data().len();
        let steps = self.0.len() - present;
        let changes = 2 * steps + SLACK;
        let mut rooms = Rooms {
            index: vec![0; steps / SHORTEST_PAYLOAD],
            buffer: vec![0; changes],
            spare: vec![0; present + steps],
            output: vec![0; changes + LONGEST_END],
        };
        let answer = rooms.call(|rooms| {
            let (index, buffer) = (&mut rooms.index, &mut rooms.buffer);
            let (spare, output) = (&mut rooms.spare, &mut rooms.output);
            calls::history_since(&self.0, serial, version, index, buffer, spare, output)
        });
        assert_eq!(answer.status, status::OK, "the serial number is known");
        rooms.into_output(answer.length)
    }
}

/// Returns the bytes of the first part of a history, or of the steps behind it, which have its
/// form.
fn part(history: &Body) -> Option<Body> {
    let (offset, length, is_found) = calls::history_data(history);
    is_found.then(|| history.within(offset, length))
}

/// Returns the end of data or changes in canonical form.
fn end_of(part: &[u8]) -> EndOfData {
    let first = Unit::first(part).map(|(unit, _)| unit.version());
    let end: UnitRef = Unit::EndOfData(EndOfData {
        version: first.unwrap_or(HIGHEST_VERSION),
        session: 0,
        serial: 0,
        timing: None,
    });
    match Unit::first(&part[part.len() - end.size()..]) {
        Ok((Unit::EndOfData(end), _)) => end,
        _ => panic!("a part of a history ends with an end of data"),
    }
}

/// Returns data of one version as encoded for another.
pub(crate) fn in_version(data: &[u8], of: u8, version: u8) -> Cow<'_, [u8]> {
    if of == version {
        return Cow::Borrowed(data);
    }
    let mut form = vec![0; data.len() + LONGEST_END];
    let normalised = normalise_for(data, &mut form, u64::MAX, version);
    form.truncate(
        normalised
            .expect("data have a form in each version")
            .written,
    );
    form.shrink_to_fit();
    Cow::Owned(form)
}

fn milliseconds_since_1970() -> u64 {
    let since = SystemTime::now().duration_since(UNIX_EPOCH);
    u64::try_from(since.unwrap_or_default().as_millis()).unwrap_or(u64::MAX)
}
