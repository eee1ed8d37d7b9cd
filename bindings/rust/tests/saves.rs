//! What a cache saves, and how it starts over its file.
#![cfg(feature = "std")]

mod caches;
mod common;
mod peers;

use caches::{knows, options, Cache, SavedFile};
use peers::*;
use rtr_wire::*;
use std::io::ErrorKind;
use std::process::Command;
use std::sync::atomic::{AtomicBool, Ordering};
use std::sync::mpsc::channel;
use std::sync::{Arc, Mutex};
use std::time::SystemTime;

/// A server that starts over its file has its data and the deltas to them, and tells a client that
/// asked before it had them. It accepts no file with
/// a byte changed, or without its end, or of another form.
#[test]
fn restarts() {
    let _alone = alone();
    let file = SavedFile::new("restarts");
    let path = &file.0;
    drop(Cache::saving(&file, 1..=4));
    let whole = std::fs::read(path).unwrap();
    assert_eq!(whole[..8], *b"rtrkept2");
    let server = Server::new(options());
    let refused = |bytes: &[u8]| {
        std::fs::write(path, bytes).unwrap();
        let error = server.save_to(path).unwrap_err();
        assert_eq!(error.kind(), ErrorKind::InvalidData);
        assert_eq!(std::fs::read(path).unwrap(), bytes);
        error.to_string()
    };
    for at in 0..whole.len() {
        let mut torn = whole.clone();
        torn[at] ^= 1;
        assert_eq!(
            refused(&torn),
            "the saved file is damaged: the data need a new session",
            "at {at}"
        );
        assert_eq!(
            refused(&whole[..at]),
            "the saved file is damaged: the data need a new session",
            "up to {at}"
        );
    }
    std::fs::write(path, &whole).unwrap();
    // What a save left that was killed.
    std::fs::write(file.folder().join("kept.new"), &whole[..9]).unwrap();
    let cache = Cache::new(options());
    let mut early = cache.client();
    early.send(&reset_query(2));
    assert!(matches!(early.unit(), Some(Unit::ErrorReport(_))));
    assert_eq!(cache.server.save_to(path).unwrap(), Some(data(4)));
    assert!(matches!(early.unit(), Some(Unit::SerialNotify(notify)) if notify.serial == 4));
    assert_eq!(file.names(), ["kept"]);
    assert_eq!(cache.server.end(), Some(data(4).end()));
    knows(&cache, 2, 1..=4);
    assert_eq!(cache.server.update(data(4)), Ok(false));
    assert_eq!(cache.server.update(data(5)), Ok(true));
    knows(&cache, 1, 1..=5);
    // A cache that has data refuses `save_to`, whether it saves or not.
    assert_eq!(server.update(data(1)), Ok(true));
    for server in [&cache.server, &server] {
        let error = server.save_to(path).unwrap_err();
        assert_eq!(error.kind(), ErrorKind::AlreadyExists);
    }
    cache.serves(5);
    drop(cache);
    let again = Server::new(options());
    assert_eq!(again.save_to(path).unwrap(), Some(data(5)));
}

/// The file of an earlier version of the crate: magic, the FNV-1a hash of what follows, and the
/// data and steps back, each after its time in milliseconds and its length.
fn former_file(parts: &[(SystemTime, &[u8])]) -> Vec<u8> {
    let mut history = Vec::new();
    for (time, bytes) in parts {
        let since = time.duration_since(SystemTime::UNIX_EPOCH).unwrap();
        history.extend((since.as_millis() as u64).to_be_bytes());
        history.extend((bytes.len() as u64).to_be_bytes());
        history.extend(*bytes);
    }
    let mut hash: u64 = 0xcbf2_9ce4_8422_2325;
    for byte in &history {
        hash = (hash ^ u64::from(*byte)).wrapping_mul(0x0100_0000_01b3);
    }
    [&b"rtrkept1"[..], &hash.to_be_bytes(), &history].concat()
}

/// A file of an earlier version of the crate is read, if it is as it was written.
#[test]
fn former_files() {
    let _alone = alone();
    let file = SavedFile::new("former");
    let now = SystemTime::now();
    let [one, two] = [2, 3].map(|serial| data(serial).delta_to(&data(serial - 1)).unwrap());
    let present = data(3);
    let steps = [two.as_bytes(), one.as_bytes()];
    let former = former_file(&[(now, present.as_bytes()), (now, steps[0]), (now, steps[1])]);
    let server = Server::new(options());
    let refuses = |bytes: &[u8]| {
        std::fs::write(&file.0, bytes).unwrap();
        let error = server.save_to(&file.0).unwrap_err();
        assert_eq!(error.kind(), ErrorKind::InvalidData);
        assert_eq!(
            error.to_string(),
            "the saved file is damaged: the data need a new session"
        );
    };
    for at in 0..former.len() {
        let mut torn = former.clone();
        torn[at] ^= 1;
        refuses(&torn);
        refuses(&former[..at]);
    }
    // Steps that don't lead back from the data, under a hash of them.
    let twice = [present.as_bytes(), steps[0], steps[0]].map(|bytes| (now, bytes));
    refuses(&former_file(&twice));
    refuses(&former_file(&twice[1..]));
    std::fs::write(&file.0, &former).unwrap();
    let cache = Cache::new(options());
    assert_eq!(cache.server.save_to(&file.0).unwrap(), Some(data(3)));
    knows(&cache, 2, 1..=3);
    assert_eq!(cache.server.update(data(4)), Ok(true));
    knows(&cache, 0, 1..=4);
    assert!(std::fs::read(&file.0).unwrap().starts_with(b"rtrkept2"));
}

/// A file whose data are of version 1, as another program saved them, is served in all versions.
/// Data of its session follow in version 1 or 0, and any data in another session.
#[test]
fn file_of_a_lower_version() {
    let _alone = alone();
    let file = SavedFile::new("lower");
    let old = |serial, version| data(serial).for_version(version).unwrap();
    let saved = former_file(&[(SystemTime::now(), old(3, 1).as_bytes())]);
    std::fs::write(&file.0, saved).unwrap();
    let cache = Cache::new(options());
    let gets = |wanted: &Data| {
        for version in 0..=2 {
            let mut client = cache.client();
            client.send(&reset_query(version));
            let wanted = wanted.for_version(version).unwrap();
            assert_eq!(client.response(), wanted.as_bytes());
        }
    };
    assert_eq!(cache.server.save_to(&file.0).unwrap(), Some(old(3, 1)));
    gets(&old(3, 1));
    assert_eq!(cache.server.update(old(3, 1)), Ok(false));
    let refused = cache.server.update(data(4)).unwrap_err();
    assert_eq!(refused, UpdateError::HigherVersion);
    let text = "the saved data are of a lower version: the data need a new session";
    assert_eq!(refused.to_string(), text);
    for (serial, version) in [(4, 1), (5, 0), (6, 1)] {
        let next = old(serial, version);
        assert_eq!(cache.server.update(next.clone()), Ok(true));
        gets(&next.for_version(1).unwrap());
    }
    for version in 1..=2 {
        let mut client = cache.client();
        client.send(&serial_query(version, SESSION, 4));
        let [from, to] = [4, 6].map(|serial| old(serial, 1).for_version(version).unwrap());
        let changes = from.delta_to(&to).unwrap();
        assert_eq!(client.response(), changes.as_bytes());
    }
    let other = data(1).numbered(SESSION + 1, 1);
    assert_eq!(cache.server.update(other.clone()), Ok(true));
    assert_eq!(cache.server.end(), Some(other.end()));
}

/// Each data are in the file before they are served, and the file is as it was before them if they
/// are refused.
#[test]
fn files() {
    let _alone = alone();
    let file = SavedFile::new("files");
    let cache = Cache::saving(&file, 1..=1);
    for serial in 2..=3 {
        assert_eq!(cache.server.update(data(serial)), Ok(true));
        let saved = std::fs::read(&file.0).unwrap();
        let other = SavedFile::new("other");
        std::fs::write(&other.0, &saved).unwrap();
        let found = Server::new(options()).save_to(&other.0).unwrap();
        assert_eq!(found, Some(data(serial)));
        assert!(cache.server.update(data(serial - 1)).is_err());
        assert_eq!(cache.server.update(data(serial)), Ok(false));
        assert_eq!(std::fs::read(&file.0).unwrap(), saved);
        assert_eq!(file.names(), ["kept"]);
    }
}

/// The serial number of the data that a restart would find.
fn saved_serial(file: &SavedFile) -> Option<u32> {
    let copy = SavedFile::new("copy");
    std::fs::copy(&file.0, &copy.0).ok()?;
    let data = Server::new(options()).save_to(&copy.0).unwrap();
    data.map(|data| data.end().serial)
}

/// Data that can't be saved aren't served, whatever else comes, until they are.
#[test]
fn saves_that_fail() {
    let _alone = alone();
    let file = SavedFile::new("fail");
    let (sender, logged) = channel();
    let sender = Mutex::new(sender);
    let server = Server::logging(options(), move |_, message, fields| {
        let fields = fields
            .iter()
            .map(|(name, field)| format!(" {name}={field}"));
        let line = message.to_string() + &fields.collect::<String>();
        let _ = sender.lock().unwrap().send((line, Stamp::now()));
    });
    let address = server.listen("127.0.0.1:0").unwrap();
    let cache = Cache { server, address };
    let server = &cache.server;
    server.save_to(&file.0).unwrap();
    assert_eq!(server.update(data(1)), Ok(true));
    let mut client = cache.client();
    client.send(&reset_query(2));
    assert_eq!(client.response(), data(1).as_bytes());
    while logged.try_recv().is_ok() {}

    // A folder has the name of the new file, so that it can't be written.
    let blocked = file.folder().join("kept.new");
    std::fs::create_dir(&blocked).unwrap();
    let failure = std::fs::File::create(&blocked).unwrap_err();
    let refused = Err(UpdateError::NotSaved((&failure).into()));
    for serial in [2, 3, 3] {
        let before = Stamp::now();
        let error = server.update(data(serial));
        // Until the next retry it would sleep for a second at least.
        let slept = before.slept_until(Stamp::now());
        assert!(slept < milliseconds(900), "it waits: {slept:?}");
        assert_eq!(error, refused);
        let text = format!("new data aren't served before they are saved: {failure}");
        assert_eq!(error.unwrap_err().to_string(), text);
        assert_eq!(server.end(), Some(data(1).end()));
    }
    // Refused data change nothing.
    assert!(matches!(
        server.update(data(0)),
        Err(UpdateError::SerialNotAfter { present: 1, new: 0 })
    ));
    cache.serves(1);
    assert_eq!(saved_serial(&file), Some(1));
    // It retries after 1, 2, 4 .. seconds.
    let is_retry = |(line, _): &(String, Stamp)| line.starts_with("not saved");
    let retries = || logged.iter().find(is_retry).expect("a line");
    let (line, first) = retries();
    assert_eq!(line, format!("not saved error={failure}"));
    let second = retries().1;
    let (pause, slept) = (first.until(second), first.slept_until(second));
    assert!(pause >= milliseconds(2000), "{pause:?}");
    assert!(slept < milliseconds(3000), "{slept:?}");
    assert_eq!(threads("rtr save"), 1);
    std::fs::remove_dir(&blocked).unwrap();
    // The waiting client is notified of the data that were saved then.
    assert!(matches!(client.unit(), Some(Unit::SerialNotify(notify)) if notify.serial == 3));
    assert_eq!(server.end(), Some(data(3).end()));
    assert!(logged
        .iter()
        .any(|(line, _)| line.contains("data") && line.contains("serial=3")));
    assert_eq!(saved_serial(&file), Some(3));
    assert_eq!(file.names(), ["kept"]);
    assert!(holds(|| threads("rtr save") == 0));
    client.send(&serial_query(2, SESSION, 1));
    let changes = data(1).delta_to(&data(3)).unwrap();
    assert_eq!(client.response(), changes.as_bytes());
}

/// A save that fails after the new file was written leaves no file.
#[test]
fn what_a_failed_save_leaves() {
    let _alone = alone();
    let file = SavedFile::new("leaves");
    let cache = Cache::saving(&file, 1..=1);
    // A folder has the name of the file, so that no file can be renamed to it.
    std::fs::remove_file(&file.0).unwrap();
    std::fs::create_dir(&file.0).unwrap();
    for serial in 2..=3 {
        let refused = cache.server.update(data(serial));
        assert!(matches!(refused, Err(UpdateError::NotSaved(_))));
        assert_eq!(file.names(), ["kept"]);
        cache.serves(1);
    }
    std::fs::remove_dir(&file.0).unwrap();
    assert!(holds(|| cache.server.end() == Some(data(3).end())));
    assert_eq!(saved_serial(&file), Some(3));
}

/// The files in memory that the process has.
fn files_in_memory() -> usize {
    let descriptors = std::fs::read_dir("/proc/self/fd").unwrap();
    let links = descriptors.filter_map(|link| std::fs::read_link(link.ok()?.path()).ok());
    links
        .filter(|link| link.to_string_lossy().starts_with("/memfd:"))
        .count()
}

/// A cache has its present data once, and earlier data only while a client gets them. Clients of
/// another version share a second file.
#[test]
fn tables_in_memory() {
    let _alone = alone();
    let file = SavedFile::new("tables");
    for saves in [true, false] {
        let cache = Cache::new(options());
        if saves {
            cache.server.save_to(&file.0).unwrap();
        }
        let of = |serial: u32| data_of(SESSION, serial, 20_000 + serial as u16);
        for serial in 1..=4 {
            assert_eq!(cache.server.update(of(serial)), Ok(true));
            let is_one = holds(|| files_in_memory() == 1);
            assert!(is_one, "{} files", files_in_memory());
        }
        for (version, count) in [(2, 1), (1, 2), (1, 2)] {
            let mut client = cache.client();
            client.send(&reset_query(version));
            let wanted = of(4).for_version(version).unwrap();
            assert_eq!(client.response(), wanted.as_bytes());
            assert_eq!(files_in_memory(), count);
        }
        drop(cache);
        assert_eq!(files_in_memory(), 0);
    }
}

/// The mappings that the process has of files in memory.
fn mapped_files() -> usize {
    let mappings = std::fs::read_to_string("/proc/self/maps").unwrap();
    let lines = mappings.lines();
    lines.filter(|line| line.contains("/memfd:")).count()
}

/// A program that is started gets neither the table of a cache nor what its thread waits with, and
/// no table stays mapped.
#[test]
fn what_is_left_of_tables() {
    let _alone = alone();
    let cache = Cache::new(options());
    for _ in 0..2 {
        cache.server.change_session();
        let table = unbuffered();
        let session = table.end().session + u16::from(cache.server.end().is_some());
        assert_eq!(cache.server.update(table.numbered(session, 1)), Ok(true));
        assert!(holds(|| mapped_files() == 1), "{} files", mapped_files());
    }
    let inherited = Command::new("ls").args(["-l", "/proc/self/fd"]).output();
    let inherited = String::from_utf8(inherited.unwrap().stdout).unwrap();
    assert!(inherited.contains(" -> "), "{inherited}");
    for name in ["memfd:rtr", "eventpoll"] {
        assert!(!inherited.contains(name), "{inherited}");
    }
    drop(cache);
    assert_eq!(mapped_files(), 0);
}

/// Newer data that are saved, or the present ones again, end the retries, and so does a stop.
#[test]
fn retries_that_end() {
    let _alone = alone();
    for (serial, is_new) in [(3, true), (1, false)] {
        let file = SavedFile::new("retries");
        let cache = Cache::saving(&file, 1..=1);
        let blocked = file.folder().join("kept.new");
        std::fs::create_dir(&blocked).unwrap();
        assert!(cache.server.update(data(2)).is_err());
        std::fs::remove_dir(&blocked).unwrap();
        assert_eq!(cache.server.update(data(serial)), Ok(is_new));
        assert!(holds(|| threads("rtr save") == 0));
        assert_eq!(cache.server.end(), Some(data(serial).end()));
        assert_eq!(saved_serial(&file), Some(serial));
        // A later failure is retried too.
        std::fs::create_dir(&blocked).unwrap();
        assert!(cache.server.update(data(4)).is_err());
        assert!(holds(|| threads("rtr save") == 1));
        std::fs::remove_dir(&blocked).unwrap();
        assert!(holds(|| cache.server.end() == Some(data(4).end())));
        // A server that stops retries no longer.
        std::fs::create_dir(&blocked).unwrap();
        assert!(cache.server.update(data(5)).is_err());
        assert!(holds(|| threads("rtr save") == 1));
        cache.server.stop();
        assert!(holds(|| threads("rtr save") == 0));
    }
}

/// Nothing of a cache whose retries have ended runs any more, also if one had begun.
#[test]
fn a_retry_that_has_begun() {
    let _alone = alone();
    let file = SavedFile::new("begun");
    let cache = rtr_wire::Cache::new(options());
    cache.save_to(&file.0).unwrap();
    cache.update(data(1)).unwrap();
    let (began, beginnings) = channel();
    let began = Mutex::new(began);
    let states = Arc::new([AtomicBool::new(false), AtomicBool::new(false)]);
    let retried = Arc::clone(&states);
    cache.on_retry(move |_| {
        let [stops, has_ended] = &*retried;
        let _ = began.lock().unwrap().send(());
        while !stops.load(Ordering::SeqCst) {
            std::thread::sleep(milliseconds(1));
        }
        std::thread::sleep(milliseconds(300)); // for a stop that doesn't wait
        has_ended.store(true, Ordering::SeqCst);
    });
    let blocked = file.folder().join("kept.new");
    std::fs::create_dir(&blocked).unwrap();
    assert!(cache.update(data(2)).is_err());
    beginnings.recv_timeout(PATIENCE).expect("it retries");
    let [stops, has_ended] = &*states;
    stops.store(true, Ordering::SeqCst);
    cache.stop_saving();
    assert!(has_ended.load(Ordering::SeqCst));
}

/// The function that gets the result of a retry may call the cache.
#[test]
fn a_retry_that_asks_the_cache() {
    let _alone = alone();
    let file = SavedFile::new("asks");
    let cache = Arc::new(rtr_wire::Cache::new(options()));
    cache.save_to(&file.0).unwrap();
    cache.update(data(1)).unwrap();
    let (sender, results) = channel();
    let sender = Mutex::new(sender);
    let asked = Arc::downgrade(&cache);
    cache.on_retry(move |saved| {
        if let (Ok(data), Some(cache)) = (saved, asked.upgrade()) {
            let is_new = cache.update(data.clone());
            let _ = sender.lock().unwrap().send(is_new);
        }
    });
    let blocked = file.folder().join("kept.new");
    std::fs::create_dir(&blocked).unwrap();
    assert!(cache.update(data(2)).is_err());
    std::fs::remove_dir(&blocked).unwrap();
    let is_new = results.recv_timeout(PATIENCE).expect("it returns");
    assert_eq!(is_new, Ok(false));
    assert_eq!(cache.end(), Some(data(2).end()));
}

/// A cache never serves two data under one session and serial number: it doesn't return to a
/// session that it left, after a restart either, nor, if it doesn't save, to another session.
#[test]
fn sessions_that_were_left() {
    let _alone = alone();
    let file = SavedFile::new("left");
    let cache = Cache::saving(&file, 1..=2);
    assert_eq!(cache.server.update(data_of(7, 1, 20)), Ok(true));
    assert_eq!(cache.server.update(data_of(8, 1, 20)), Ok(true));
    drop(cache);
    let cache = Cache::new(options());
    assert!(cache.server.save_to(&file.0).unwrap().is_some());
    for session in [SESSION, 7] {
        let refused = cache.server.update(data_of(session, 9, 21));
        assert_eq!(refused, Err(UpdateError::SessionLeft));
    }
    let text = UpdateError::SessionLeft.to_string();
    assert_eq!(text, "the cache left this session: the data need a new one");
    assert_eq!(cache.server.end(), Some(data_of(8, 1, 20).end()));
    assert_eq!(cache.server.update(data_of(8, 2, 21)), Ok(true));
    drop(cache);
    let unsaved = Cache::with_data(2);
    for session in [7, 8] {
        let refused = unsaved.server.update(data_of(session, 3, 20));
        assert_eq!(refused, Err(UpdateError::OtherSession));
    }
    let text = UpdateError::OtherSession.to_string();
    assert_eq!(text, "a cache that doesn't save has one session");
    unsaved.serves(2);
    // Unless its caller says that the next session is new.
    let mut client = unsaved.client();
    client.send(&reset_query(2));
    client.response();
    unsaved.server.change_session();
    unsaved.serves(2);
    // The present session isn't new: its serial numbers go on.
    assert_eq!(
        unsaved.server.update(data_of(SESSION, 1, 20)),
        Err(UpdateError::SerialNotAfter { present: 2, new: 1 })
    );
    assert_eq!(unsaved.server.update(data_of(7, 1, 20)), Ok(true));
    assert!(client.is_closed());
    assert_eq!(unsaved.server.end(), Some(data_of(7, 1, 20).end()));
    let refused = unsaved.server.update(data_of(8, 3, 20));
    assert_eq!(refused, Err(UpdateError::OtherSession));
    let error = unsaved.server.save_to(&file.0).unwrap_err();
    assert_eq!(error.kind(), ErrorKind::AlreadyExists);
    drop(unsaved);
    // A call that one that saves ignores.
    let cache = Cache::new(options());
    assert!(cache.server.save_to(&file.0).unwrap().is_some());
    cache.server.change_session();
    let refused = cache.server.update(data_of(7, 9, 21));
    assert_eq!(refused, Err(UpdateError::SessionLeft));
    assert_eq!(cache.server.update(data_of(8, 3, 22)), Ok(true));
}
