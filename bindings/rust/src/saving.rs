//! Writes the file of a cache, and retries it.

use crate::cache::locked;
use crate::calls;
use crate::options::span;
use std::fs::{remove_file, rename, File};
use std::io::{self, ErrorKind, Write};
use std::path::{Path, PathBuf};
use std::string::ToString;
use std::sync::{Arc, Condvar, Mutex, PoisonError};
use std::thread::{current, Builder, JoinHandle};
use std::time::{Duration, Instant};

/// Returns the name of the new file beside the old one, which it replaces when it is complete.
fn new_beside(path: &Path) -> PathBuf {
    let mut new = path.as_os_str().to_os_string();
    new.push(".new");
    new.into()
}

/// Removes the new file of a save that was killed.
pub(crate) fn forget_new(path: &Path) {
    let _ = remove_file(new_beside(path));
}

/// Replaces a file: writes and syncs another one beside it, renames that, and syncs the folder. If
/// it fails, no new file is left.
pub(crate) fn replace(path: &Path, parts: &[&[u8]]) -> io::Result<()> {
    let new = new_beside(path);
    let written = write(&new, parts).and_then(|()| rename(&new, path));
    if written.is_err() {
        forget_new(path);
    }
    written?;
    sync_folder(path)
}

fn write(path: &Path, parts: &[&[u8]]) -> io::Result<()> {
    let mut file = File::create(path)?;
    for part in parts {
        file.write_all(part)?;
    }
    file.sync_all()
}

/// Syncs the folder of a file, if its file system can sync folders.
pub(crate) fn sync_folder(path: &Path) -> io::Result<()> {
    let folder = path.parent().filter(|folder| *folder != Path::new(""));
    match File::open(folder.unwrap_or_else(|| Path::new(".")))?.sync_all() {
        Err(error) if error.kind() == ErrorKind::InvalidInput => Ok(()),
        synced => synced,
    }
}

/// A thread that repeats a task at growing intervals, while there is one to repeat.
#[derive(Debug, Default)]
pub(crate) struct Retries {
    turn: Arc<(Mutex<Turn>, Condvar)>,
    thread: Mutex<Option<JoinHandle<()>>>,
}

/// The number of the thread that may continue: the last one started, unless cancelled.
#[derive(Debug, Default)]
struct Turn {
    number: u64,
    is_stopped: bool,
}

impl Retries {
    /// Starts the thread, which ends once the task returns true.
    pub(crate) fn start(
        &self,
        mut is_done: impl FnMut() -> bool + Send + 'static,
    ) -> io::Result<()> {
        let turn = Arc::clone(&self.turn);
        let number = self.next_turn();
        let task = move || {
            let mut pause = calls::retry_after(0);
            while has_waited(&turn, number, span(pause)) && !is_done() {
                pause = calls::retry_after(pause);
            }
        };
        let thread = Builder::new().name("rtr save".to_string()).spawn(task)?;
        *locked(&self.thread) = Some(thread);
        Ok(())
    }

    /// Ends the thread, if there is one.
    pub(crate) fn cancel(&self) {
        self.next_turn();
    }

    fn next_turn(&self) -> u64 {
        let mut turn = locked(&self.turn.0);
        turn.number += 1;
        self.turn.1.notify_all();
        turn.number
    }

    /// Ends the thread, and all that are started later.
    pub(crate) fn stop(&self) {
        locked(&self.turn.0).is_stopped = true;
        self.turn.1.notify_all();
        let thread = locked(&self.thread).take();
        // The thread itself may drop the cache.
        if let Some(thread) = thread.filter(|thread| thread.thread().id() != current().id()) {
            let _ = thread.join();
        }
    }
}

/// Waits for a time; returns whether the thread of this number may continue.
fn has_waited((turn, changed): &(Mutex<Turn>, Condvar), number: u64, pause: Duration) -> bool {
    let until = Instant::now() + pause;
    let mut turn = locked(turn);
    while turn.number == number && !turn.is_stopped {
        let left = until.saturating_duration_since(Instant::now());
        if left.is_zero() {
            return true;
        }
        let woken = changed.wait_timeout(turn, left);
        turn = woken.unwrap_or_else(PoisonError::into_inner).0;
    }
    false
}

#[cfg(test)]
mod tests {
    use super::{has_waited, Retries};
    use crate::calls;
    use std::iter::successors;
    use std::sync::mpsc::channel;
    use std::sync::Arc;
    use std::thread::{sleep, spawn};
    use std::time::Duration;
    use std::vec::Vec;

    // As `Server::update` says.
    #[test]
    fn pauses_double_up_to_a_minute() {
        let pauses = successors(Some(0), |pause| Some(calls::retry_after(*pause)));
        let seconds: Vec<u32> = pauses.skip(1).take(8).map(|pause| pause / 1000).collect();
        assert_eq!(seconds, [1, 2, 4, 8, 16, 32, 60, 60]);
    }

    /// A stop, and other data that were saved, end a pause at once.
    #[test]
    fn pauses_that_are_ended() {
        let ends: [fn(&Retries); 2] = [Retries::stop, Retries::cancel];
        for end in ends {
            let retries = Retries::default();
            let (turn, number) = (Arc::clone(&retries.turn), retries.next_turn());
            let (sender, waited) = channel();
            let pause = Duration::from_secs(3600);
            let waiting = spawn(move || sender.send(has_waited(&turn, number, pause)));
            sleep(Duration::from_millis(50)); // it waits by now; later it wouldn't begin to
            end(&retries);
            assert_eq!(waited.recv_timeout(Duration::from_secs(30)), Ok(false));
            waiting.join().unwrap().unwrap();
        }
    }
}
