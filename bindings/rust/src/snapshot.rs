//! The data that a cache serves at a time, and their encoded answers, which connections share.

use crate::body::{Body, Memory};
use crate::cache::locked;
use crate::cache_machine::Present;
use crate::calls;
use crate::canonical::changes_between;
use crate::options::ServerOptions;
use crate::store::{in_version, History};
use crate::units::EndOfData;
use std::collections::BTreeMap;
use std::sync::Mutex;
use std::vec::Vec;

/// The versions of the protocol.
const VERSIONS: u8 = 3;

/// The history that is served, and its encoded answers.
#[derive(Debug)]
pub(crate) struct Snapshot {
    /// The number of the data: they are numbered as they come, from 1 on.
    pub(crate) number: u64,
    /// Session and serial number, for the machine.
    pub(crate) present: Present,
    /// The serial numbers of earlier data from which deltas are available.
    pub(crate) known: Vec<u32>,
    end: EndOfData,
    history: History,
    encoded: Mutex<Encoded>,
}

/// Encoded answers, made when the first client asks.
#[derive(Debug, Default)]
struct Encoded {
    /// All data, by version.
    all: [Option<Body>; VERSIONS as usize],
    /// Deltas to the present data, by the serial number they start from and by version.
    changes: BTreeMap<(u32, u8), Body>,
    /// Their size in bytes.
    size: usize,
}

impl Snapshot {
    /// Creates the snapshot of a history, which replaces the present snapshot.
    pub(crate) fn after(
        before: Option<&Snapshot>,
        history: History,
        options: &ServerOptions,
    ) -> Snapshot {
        let end = history.end();
        let snapshot = Snapshot {
            number: before.map_or(1, |before| before.number + 1),
            present: Present::of(end),
            known: history.known(),
            end,
            history,
            encoded: Mutex::default(),
        };
        // Most clients will ask for these deltas, and none waits yet.
        if let Some(before) = before.filter(|before| before.leads_to(&snapshot)) {
            snapshot.lead_from(before, options);
        }
        snapshot
    }

    /// Computes the delta from the snapshot before, in the versions in which its clients asked:
    /// what `History::since` returns, but here both data are at hand.
    fn lead_from(&self, before: &Snapshot, options: &ServerOptions) {
        let versions = before.versions();
        if versions.is_empty() {
            return;
        }
        let (serial, old, new) = (before.present.serial, before.data(), self.data());
        let changes = changes_between(&old, &new).expect("memory for the changes");
        for version in versions {
            let changes = in_version(&changes.bytes, self.end.version, version).into_owned();
            debug_assert_eq!(changes, self.history.since(serial, version));
            self.keep((serial, version), changes, options);
        }
    }

    /// Reports whether a later snapshot has the delta from this one.
    fn leads_to(&self, later: &Snapshot) -> bool {
        self.present.session == later.present.session && later.known.contains(&self.present.serial)
    }

    /// Returns the versions in which clients asked.
    fn versions(&self) -> Vec<u8> {
        let encoded = locked(&self.encoded);
        let is_asked = |version: &u8| {
            let mut changes = encoded.changes.keys();
            encoded.all[usize::from(*version)].is_some() || changes.any(|(_, of)| of == version)
        };
        (0..VERSIONS).filter(is_asked).collect()
    }

    /// Returns the end of data.
    pub(crate) fn end(&self) -> EndOfData {
        self.end
    }

    /// Returns the data, in canonical form.
    pub(crate) fn data(&self) -> Body {
        self.history.data()
    }

    /// Returns all data as encoded for clients of a version.
    pub(crate) fn all(&self, version: u8) -> Body {
        let make = || match self.data() {
            data if version == self.end.version => data,
            data => {
                let form = in_version(&data, self.end.version, version);
                Body::of(Memory::of(form.into_owned()))
            }
        };
        let form = &mut locked(&self.encoded).all[usize::from(version)];
        form.get_or_insert_with(make).clone()
    }

    /// Returns the delta from a known serial number, or from the present one, as encoded for
    /// clients of a version.
    pub(crate) fn since(&self, version: u8, serial: u32, options: &ServerOptions) -> Body {
        let key = (serial, version);
        if let Some(changes) = locked(&self.encoded).changes.get(&key) {
            return changes.clone();
        }
        let changes = if serial == self.present.serial {
            self.history.nothing(version)
        } else {
            self.history.since(serial, version)
        };
        self.keep(key, changes, options)
    }

    /// Keeps encoded changes for further clients, if the limit lets it.
    fn keep(&self, key: (u32, u8), changes: Vec<u8>, options: &ServerOptions) -> Body {
        let changes = Body::of(Memory::Allocated(changes));
        let mut encoded = locked(&self.encoded);
        let fits = calls::server_keeps(&options.settings(), encoded.size, changes.len());
        if fits && !encoded.changes.contains_key(&key) {
            encoded.size += changes.len();
            encoded.changes.insert(key, changes.clone());
        }
        changes
    }
}

#[cfg(test)]
mod tests {
    use super::Snapshot;
    use crate::abi::HistoryLimits;
    use crate::cache::locked;
    use crate::store::Store;
    use crate::{Data, ServerOptions};
    use std::vec::Vec;

    /// Returns data of version 2 with these prefixes, 10.0.N.0/24.
    fn data(serial: u32, numbers: impl IntoIterator<Item = u8>) -> Data {
        let mut bytes = Vec::new();
        for number in numbers {
            bytes.extend([2, 4, 0, 0, 0, 0, 0, 20, 1, 24, 24, 0, 10, 0, number, 0]);
            bytes.extend([0, 1, 0, 15]);
        }
        bytes.extend(Data::new(2, 4660, serial, None).unwrap().into_bytes());
        Data::parse(&bytes).unwrap()
    }

    /// Deltas that are made at hand are those of the history, in each version, and the deltas from
    /// each known serial number lead to the present data.
    #[test]
    fn deltas() {
        let options = ServerOptions::default();
        let limits = HistoryLimits {
            time: u64::MAX,
            bytes: options.keep_bytes,
        };
        let rows = [
            data(1, 0..9),
            data(2, 3..12),
            data(9, [1, 4, 8]),
            data(10, []),
        ];
        let (mut store, mut before) = (Store::default(), None::<Snapshot>);
        for (count, row) in rows.iter().enumerate() {
            assert_eq!(store.take(row, &limits), Ok(true));
            let history = store.history().expect("it serves at once");
            let snapshot = Snapshot::after(before.as_ref(), history.clone(), &options);
            assert_eq!(&snapshot.data()[..], row.as_bytes());
            let earlier = rows[..count].iter().rev();
            let known: Vec<u32> = earlier.map(|data| data.end().serial).collect();
            assert_eq!(snapshot.known, known);
            for version in 0..=2 {
                assert_eq!(
                    history.nothing(version),
                    history.since(row.end().serial, version)
                );
                for old in &rows[..=count] {
                    let changes = snapshot.since(version, old.end().serial, &options);
                    let old = old.for_version(version).unwrap();
                    let new = old.apply_in_order(&changes).unwrap();
                    assert_eq!(new, row.for_version(version).unwrap());
                }
                assert!(snapshot.versions().contains(&version));
            }
            before = Some(snapshot);
        }
    }

    /// Changes are kept up to the limit. Changes beyond it are computed for each client, and the
    /// kept ones stay.
    #[test]
    fn changes_up_to_the_limit() {
        let limits = HistoryLimits {
            time: u64::MAX,
            bytes: usize::MAX,
        };
        let (mut store, mut options) = (Store::default(), ServerOptions::default());
        for (serial, numbers) in [(1, 0..9), (2, 3..12), (3, 4..9)] {
            assert_eq!(store.take(&data(serial, numbers), &limits), Ok(true));
        }
        let snapshot = Snapshot::after(None, store.history().unwrap(), &options);
        let first = snapshot.since(2, 1, &options);
        options.keep_bytes = first.len();
        let kept = |serial| locked(&snapshot.encoded).changes.contains_key(&(serial, 2));
        assert!(kept(1) && !kept(2));
        for _ in 0..2 {
            assert_eq!(
                snapshot.since(2, 2, &options)[..],
                snapshot.history.since(2, 2)[..]
            );
            assert!(kept(1) && !kept(2));
        }
        options.keep_bytes += snapshot.since(2, 2, &options).len();
        snapshot.since(2, 2, &options);
        assert!(kept(1) && kept(2));
        assert_eq!(locked(&snapshot.encoded).size, options.keep_bytes);
        snapshot.since(2, 2, &options);
        assert_eq!(locked(&snapshot.encoded).size, options.keep_bytes);
    }
}
