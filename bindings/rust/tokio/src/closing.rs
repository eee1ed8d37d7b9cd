//! Closes a client's connection.

use crate::repeated::repeated;
use crate::running::Open;
use rtr_wire::{ClientOptions, Router};
use std::future::Future;
use std::io;
use std::pin::Pin;
use std::task::{Context, Poll};
use std::time::Duration;
use tokio::io::{AsyncRead, AsyncWrite, ReadBuf};
use tokio::time::{sleep, Sleep};

/// How many bytes are discarded at a time: a page of memory, since few come after a last report.
const DISCARDED: usize = 1 << 12;

/// A connection that sends its last bytes and is then closed.
pub(crate) struct Closing<S> {
    open: Open<S>,
    is_shut: bool,
    discarded: usize,
    time: Pin<Box<Sleep>>,
}

impl<S: AsyncRead + AsyncWrite + Unpin> Closing<S> {
    /// Sends the output, and reads what the peer sends until that closes, for at most this time:
    /// closing with unread bytes would reset the connection, and the peer might lose what was sent
    /// last.
    pub(crate) fn new(open: Open<S>, time: Duration) -> Self {
        Closing {
            open,
            is_shut: false,
            discarded: 0,
            time: Box::pin(sleep(time)),
        }
    }

    /// Sends and reads until the connection can be closed.
    pub(crate) fn poll(&mut self, router: &mut Router, cx: &mut Context<'_>) -> Poll<()> {
        match self.poll_last(router, cx) {
            Poll::Ready(_) => Poll::Ready(()),
            Poll::Pending => self.time.as_mut().poll(cx),
        }
    }

    /// Sends the output, shuts the stream down for writing, then reads and discards what comes.
    fn poll_last(&mut self, router: &mut Router, cx: &mut Context<'_>) -> Poll<io::Result<()>> {
        while !router.output().is_empty() {
            if self.open.send(router, cx)?.is_pending() {
                return Poll::Pending;
            }
        }
        let stream = &mut self.open.stream;
        if !self.is_shut {
            if repeated(|| Pin::new(&mut *stream).poll_shutdown(cx))?.is_pending() {
                return Poll::Pending;
            }
            self.is_shut = true;
        }
        while self.discarded < ClientOptions::LAST_BYTES {
            let mut bytes = [0; DISCARDED];
            let mut buffer = ReadBuf::new(&mut bytes);
            if repeated(|| Pin::new(&mut *stream).poll_read(cx, &mut buffer))?.is_pending() {
                return Poll::Pending;
            }
            match buffer.filled().len() {
                0 => break,
                count => self.discarded += count,
            }
        }
        Poll::Ready(Ok(()))
    }
}
