//! Carries the bytes of a server's connection.

use crate::repeated::repeated;
use rtr_wire::{Moment, Served, ServedStep};
use std::future::Future;
use std::io::{self, ErrorKind, IoSlice};
use std::pin::Pin;
use std::task::{Context, Poll};
use tokio::io::{AsyncRead, AsyncWrite, ReadBuf};

/// How many bytes are read at once.
const CHUNK: usize = 4096;

/// A connection: its stream, and the cache's end of the session.
pub(crate) struct Carried<S> {
    stream: S,
    served: Served,
    /// Whether the stream may hold written bytes, and needs a flush.
    pub(crate) holds: bool,
    /// Whether to shut the stream down for writing.
    is_finishing: bool,
}

/// What a connection waits for.
#[derive(Clone, Copy)]
pub(crate) enum Wanted {
    /// Bytes of the client.
    Bytes,
    /// Room in the stream for bytes to be sent.
    Room,
    /// A flush of the stream's buffered bytes.
    Flush,
}

impl<S: AsyncRead + AsyncWrite + Unpin> Carried<S> {
    pub(crate) fn new(stream: S, served: Served) -> Self {
        Carried {
            stream,
            served,
            holds: false,
            is_finishing: false,
        }
    }

    /// Returns when to call [`Carried::next`], if nothing comes before.
    pub(crate) fn wakes(&self, moment: &Moment) -> u64 {
        self.served.wakes(moment)
    }

    /// Returns the next step. The stream is shut down for writing while bytes are awaited.
    pub(crate) fn next(&mut self, moment: &Moment) -> ServedStep {
        match self.served.next(moment) {
            ServedStep::Finish => {
                self.is_finishing = true;
                self.served.next(moment)
            }
            step => step,
        }
    }

    /// Waits for bytes or for room, and carries them at the moment when the wait ends.
    pub(crate) fn carry<M: Fn() -> Moment>(
        &mut self,
        awaited: Wanted,
        moment: M,
    ) -> Carrying<'_, S, M> {
        Carrying {
            carried: self,
            awaited,
            moment,
        }
    }

    fn poll_send(&mut self, moment: impl Fn() -> Moment, cx: &mut Context<'_>) -> Poll<()> {
        let output = self.served.output().map(IoSlice::new);
        let stream = &mut self.stream;
        let sent = repeated(|| Pin::new(&mut *stream).poll_write_vectored(cx, &output));
        sent.map(|sent| match sent {
            Ok(0) => self.served.lost(ErrorKind::WriteZero.into()),
            Ok(count) => {
                self.holds = true;
                self.served.sent(&moment(), count);
            }
            Err(error) => self.served.lost(error),
        })
    }

    fn poll_receive(&mut self, moment: impl Fn() -> Moment, cx: &mut Context<'_>) -> Poll<()> {
        if let Poll::Ready(Err(error)) = self.poll_end_of_sending(cx) {
            self.served.lost(error);
            return Poll::Ready(());
        }
        let mut bytes = [0; CHUNK];
        let mut buffer = ReadBuf::new(&mut bytes);
        let stream = &mut self.stream;
        let read = repeated(|| Pin::new(&mut *stream).poll_read(cx, &mut buffer));
        read.map(|read| match read {
            Ok(()) => self.served.received(&moment(), buffer.filled()),
            Err(error) => self.served.lost(error),
        })
    }

    fn poll_flush(&mut self, cx: &mut Context<'_>) -> Poll<()> {
        self.poll_end_of_sending(cx).map(|flushed| {
            if let Err(error) = flushed {
                self.served.lost(error);
            }
        })
    }

    /// Flushes the stream, or shuts it down for writing after the last bytes.
    fn poll_end_of_sending(&mut self, cx: &mut Context<'_>) -> Poll<io::Result<()>> {
        let stream = &mut self.stream;
        let done = match (self.is_finishing, self.holds) {
            (true, _) => repeated(|| Pin::new(&mut *stream).poll_shutdown(cx)),
            (_, true) => repeated(|| Pin::new(&mut *stream).poll_flush(cx)),
            _ => return Poll::Pending,
        };
        if done.is_ready() {
            self.is_finishing = false;
            self.holds = false;
        }
        done
    }
}

/// The wait of a connection for bytes or for room.
pub(crate) struct Carrying<'s, S, M> {
    carried: &'s mut Carried<S>,
    awaited: Wanted,
    moment: M,
}

impl<S, M> Unpin for Carrying<'_, S, M> {}

impl<S: AsyncRead + AsyncWrite + Unpin, M: Fn() -> Moment> Future for Carrying<'_, S, M> {
    type Output = ();

    fn poll(mut self: Pin<&mut Self>, cx: &mut Context<'_>) -> Poll<()> {
        let this = &mut *self;
        match this.awaited {
            Wanted::Room => this.carried.poll_send(&this.moment, cx),
            Wanted::Bytes => this.carried.poll_receive(&this.moment, cx),
            Wanted::Flush => this.carried.poll_flush(cx),
        }
    }
}
