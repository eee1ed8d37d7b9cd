//! A timer that can be set to another time.

use std::future::Future;
use std::pin::Pin;
use std::task::{Context, Poll};
use std::time::Duration;
use tokio::time::{sleep_until, Instant, Sleep};

/// A timer whose time may be another one at each poll.
#[derive(Default)]
pub(crate) struct Timer(Option<Pin<Box<Sleep>>>);

impl Timer {
    /// Waits until this time, in milliseconds since the clock began; forever, if it is `u64::MAX`.
    pub(crate) fn poll(&mut self, begun: Instant, wakes: u64, cx: &mut Context<'_>) -> Poll<()> {
        let time = match begun.checked_add(Duration::from_millis(wakes)) {
            Some(time) if wakes < u64::MAX => time,
            _ => return Poll::Pending,
        };
        let timer = self.0.get_or_insert_with(|| Box::pin(sleep_until(time)));
        if timer.deadline() != time {
            timer.as_mut().reset(time);
        }
        let came = timer.as_mut().poll(cx);
        if came.is_ready() {
            self.0 = None;
        }
        came
    }
}
