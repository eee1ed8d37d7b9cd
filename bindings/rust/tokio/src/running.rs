//! The loop of a client: does what its router asks for, over one connection after the other.

use crate::closing::Closing;
use crate::repeated::repeated;
use crate::timer::Timer;
use rtr_wire::{ClientOptions, Log, LogLevel, Router, Step};
use std::future::Future;
use std::io::{self, ErrorKind};
use std::pin::Pin;
use std::task::{Context, Poll};
use tokio::io::{AsyncRead, AsyncWrite, ReadBuf};
use tokio::time::Instant;

/// A connection that is being made.
pub(crate) type Dialed<S> = Pin<Box<dyn Future<Output = io::Result<S>> + Send>>;

/// A router, and its connection.
pub(crate) struct Running<S> {
    pub(crate) router: Router,
    pub(crate) log: Option<Box<Log>>,
    dial: Box<dyn FnMut() -> Dialed<S> + Send>,
    link: Link<S>,
    options: ClientOptions,
    /// When the router's clock began: at the first call.
    begun: Option<Instant>,
    timer: Timer,
}

/// The state of the connection.
enum Link<S> {
    None,
    Dialed(Dialed<S>),
    Open(Open<S>),
    Closing(Closing<S>),
}

/// An open connection.
pub(crate) struct Open<S> {
    pub(crate) stream: S,
    /// Whether the stream may hold written bytes, and needs a flush.
    holds: bool,
}

impl<S> Running<S> {
    pub(crate) fn new(
        options: ClientOptions,
        random: u16,
        dial: Box<dyn FnMut() -> Dialed<S> + Send>,
    ) -> Self {
        Running {
            router: Router::new(&options, random),
            log: None,
            dial,
            link: Link::None,
            options,
            begun: None,
            timer: Timer::default(),
        }
    }

    /// The router's time.
    pub(crate) fn now(&self) -> u64 {
        self.begun.map_or(0, since)
    }

    /// Closes the connection, and drops the data.
    pub(crate) fn stop(&mut self) {
        self.link = Link::None;
        self.router.again();
    }
}

impl<S: AsyncRead + AsyncWrite + Unpin> Running<S> {
    /// Runs until a step has an event, and returns that step.
    pub(crate) fn poll(&mut self, cx: &mut Context<'_>) -> Poll<Step> {
        let begun = *self.begun.get_or_insert_with(Instant::now);
        loop {
            if let Link::Closing(closing) = &mut self.link {
                if closing.poll(&mut self.router, cx).is_pending() {
                    return Poll::Pending;
                }
                self.link = Link::None;
            }
            match self.router.next(since(begun)) {
                Step::Connect => self.link = Link::Dialed((self.dial)()),
                Step::Wait => {
                    if self.carry(cx).is_pending()
                        && self.timer.poll(begun, self.router.wakes(), cx).is_pending()
                    {
                        return Poll::Pending;
                    }
                }
                Step::Close => self.close(),
                step => return Poll::Ready(step),
            }
        }
    }

    /// Makes the connection, or sends and reads on it; ready if one of these was done, or failed.
    fn carry(&mut self, cx: &mut Context<'_>) -> Poll<()> {
        let done = match &mut self.link {
            Link::Dialed(dialed) => {
                let dialed = dialed.as_mut().poll(cx);
                dialed.map_ok(|stream| self.connected(stream))
            }
            Link::Open(open) => open.carry(&mut self.router, cx),
            Link::None | Link::Closing(_) => Poll::Pending,
        };
        done.map(|done| {
            if let Err(error) = done {
                self.link = Link::None;
                self.router.lost(self.now(), error);
            }
        })
    }

    /// A connection was made.
    fn connected(&mut self, stream: S) {
        if let Some(log) = &self.log {
            log(LogLevel::Debug, "connected", &[]);
        }
        self.router.connected(self.now());
        self.link = Link::Open(Open {
            stream,
            holds: false,
        });
    }

    /// Closes the connection, after the unsent bytes.
    fn close(&mut self) {
        self.link = match std::mem::replace(&mut self.link, Link::None) {
            Link::Open(open) if !self.router.output().is_empty() => {
                Link::Closing(Closing::new(open, self.options.report))
            }
            _ => Link::None,
        };
    }
}

impl<S: AsyncRead + AsyncWrite + Unpin> Open<S> {
    /// Sends what the stream takes, or else reads what came; ready if it did either, or failed.
    fn carry(&mut self, router: &mut Router, cx: &mut Context<'_>) -> Poll<io::Result<()>> {
        match self.send(router, cx) {
            Poll::Pending => self.receive(router, cx),
            sent @ Poll::Ready(_) => sent,
        }
    }

    /// Sends some of the output, or flushes the stream after all of it.
    pub(crate) fn send(
        &mut self,
        router: &mut Router,
        cx: &mut Context<'_>,
    ) -> Poll<io::Result<()>> {
        let stream = &mut self.stream;
        match router.output() {
            [] if self.holds => {
                repeated(|| Pin::new(&mut *stream).poll_flush(cx)).map_ok(|()| self.holds = false)
            }
            [] => Poll::Pending,
            output => {
                repeated(|| Pin::new(&mut *stream).poll_write(cx, output)).map(|sent| match sent? {
                    0 => Err(ErrorKind::WriteZero.into()),
                    count => {
                        self.holds = true;
                        router.sent(count);
                        Ok(())
                    }
                })
            }
        }
    }

    /// Reads bytes, or the end of the stream, which has none.
    fn receive(&mut self, router: &mut Router, cx: &mut Context<'_>) -> Poll<io::Result<()>> {
        let mut buffer = ReadBuf::new(router.room());
        let stream = &mut self.stream;
        let read = repeated(|| Pin::new(&mut *stream).poll_read(cx, &mut buffer));
        let count = buffer.filled().len();
        read.map_ok(|()| router.filled(count))
    }
}

/// Returns the milliseconds since this time.
pub(crate) fn since(begun: Instant) -> u64 {
    u64::try_from(begun.elapsed().as_millis()).unwrap_or(u64::MAX)
}
