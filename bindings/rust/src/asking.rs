//! Requests of a caller for current data.

use crate::cache::locked;
use crate::timed::{Stop, TICK};
use crate::waiting::{waker, Awaited, Waker, Woken};
use std::sync::atomic::{AtomicBool, Ordering};
use std::sync::{Arc, Mutex, Weak};
use std::time::Duration;
use std::vec::Vec;

/// A pending request to a thread, and the thread's waker.
#[derive(Debug)]
struct Asking {
    is_requested: AtomicBool,
    /// None if the system had no descriptors left.
    waker: Option<Waker>,
}

/// The requests to a thread, which wake it.
#[derive(Debug)]
pub(crate) struct Asked {
    asking: Arc<Asking>,
    /// The end that the thread waits for, if there is a waker.
    woken: Option<Woken>,
}

impl Asked {
    /// Reports whether a request is pending, and clears it.
    pub(crate) fn take(&self) -> bool {
        self.asking.is_requested.swap(false, Ordering::SeqCst)
    }

    /// Waits until the socket is ready, if there is one, there is a request, the time has passed,
    /// or the thread has to stop.
    pub(crate) fn wait(&self, stop: &Stop, socket: Option<Awaited>, most: Duration) {
        match &self.woken {
            Some(woken) => {
                stop.wait(socket.into_iter().chain([woken.awaited()]), most);
                woken.clear();
            }
            None => stop.wait(socket, most.min(TICK)),
        }
    }
}

/// The threads that run a client.
#[derive(Debug, Default)]
pub(crate) struct Askings(Mutex<Vec<Weak<Asking>>>);

impl Askings {
    /// Adds a thread, and returns its requests.
    pub(crate) fn add(&self) -> Asked {
        let (waker, woken) = match waker() {
            Ok((waker, woken)) => (Some(waker), Some(woken)),
            Err(_) => (None, None),
        };
        let asking = Arc::new(Asking {
            is_requested: AtomicBool::new(false),
            waker,
        });
        let mut all = locked(&self.0);
        all.retain(|asking| asking.strong_count() > 0);
        all.push(Arc::downgrade(&asking));
        Asked { asking, woken }
    }

    /// Requests current data from all threads.
    pub(crate) fn ask(&self) {
        for asking in locked(&self.0).iter().filter_map(Weak::upgrade) {
            asking.is_requested.store(true, Ordering::SeqCst);
            if let Some(waker) = &asking.waker {
                waker.wake();
            }
        }
    }
}

#[cfg(test)]
mod tests {
    use super::{Asked, Asking, Askings};
    use crate::timed::Stop;
    use std::sync::atomic::AtomicBool;
    use std::sync::Arc;
    use std::time::{Duration, Instant};

    const LONG: Duration = Duration::from_secs(60);
    const SHORT: Duration = Duration::from_millis(50);

    /// Returns how long a wait of at most this time took.
    fn waited(asked: &Asked, most: Duration) -> Duration {
        let begun = Instant::now();
        asked.wait(&Stop::default(), None, most);
        begun.elapsed()
    }

    /// A request ends a wait also if it came before that, once, and is taken once.
    #[test]
    fn requests_before_a_wait() {
        for count in [1, 2] {
            let askings = Askings::default();
            let asked = askings.add();
            (0..count).for_each(|_| askings.ask());
            assert!(waited(&asked, LONG) < LONG / 2, "{count} requests");
            assert!(asked.take() && !asked.take(), "{count} requests");
            assert!(waited(&asked, SHORT) >= SHORT, "{count} requests");
        }
    }

    /// A thread without a waker looks for requests now and then.
    #[test]
    fn a_thread_without_a_waker() {
        let asked = Asked {
            asking: Arc::new(Asking {
                is_requested: AtomicBool::new(false),
                waker: None,
            }),
            woken: None,
        };
        assert!(waited(&asked, LONG) < LONG / 2);
    }

    /// Nothing is kept of threads that have ended, except of the last one until another comes.
    #[test]
    fn threads_that_have_ended() {
        let askings = Askings::default();
        let runs = askings.add();
        (0..5).for_each(|_| drop(askings.add()));
        assert_eq!(askings.0.lock().unwrap().len(), 2);
        askings.ask();
        assert!(runs.take());
    }

    /// Each thread gets the requests that come after it was registered, and no earlier ones.
    #[test]
    fn requests_to_threads() {
        let askings = Askings::default();
        let first = askings.add();
        askings.ask();
        let second = askings.add();
        assert!(first.take() && !second.take());
        assert!(waited(&second, SHORT) >= SHORT);
        askings.ask();
        assert!(first.take() && second.take());
        assert!(waited(&second, LONG) < LONG / 2);
    }
}
