//! A `Socket` of TLS, which needs nothing of tokio.

use openssl::ssl::{Error, ErrorCode, HandshakeError, Ssl, SslAcceptor, SslConnector, SslStream};
use rtr_wire::Socket;
use std::io::{self, ErrorKind, Read, Write};
use std::net::{SocketAddr, TcpStream};
use std::os::unix::io::{AsFd, BorrowedFd};
use std::time::Duration;

/// TLS over a connection for which no call waits.
pub struct Tls {
    stream: SslStream<TcpStream>,
    /// Whether the last call, which would have blocked, waits for room, or else for bytes.
    awaits_room: Option<bool>,
}

impl From<SslStream<TcpStream>> for Tls {
    fn from(stream: SslStream<TcpStream>) -> Tls {
        Tls {
            stream,
            awaits_room: None,
        }
    }
}

impl Tls {
    /// Makes a call until no signal interrupts it, and notes what it waits for.
    fn call<T>(
        &mut self,
        mut call: impl FnMut(&mut SslStream<TcpStream>) -> Result<T, Error>,
    ) -> io::Result<T> {
        loop {
            let called = call(&mut self.stream);
            self.awaits_room = match called.as_ref().map_err(Error::code) {
                Err(ErrorCode::WANT_READ) => Some(false),
                Err(ErrorCode::WANT_WRITE) => Some(true),
                _ => None,
            };
            match called.map_err(Error::into_io_error) {
                Ok(done) => return Ok(done),
                Err(Ok(error)) if error.kind() == ErrorKind::Interrupted => {}
                Err(Ok(error)) => return Err(error),
                Err(Err(error)) if error.code() == ErrorCode::WANT_READ => {} // no call was made
                Err(Err(error)) => return Err(io::Error::new(ErrorKind::Other, error)),
            }
        }
    }
}

impl Read for Tls {
    fn read(&mut self, bytes: &mut [u8]) -> io::Result<usize> {
        self.call(|stream| match stream.ssl_read(bytes) {
            Err(error) if error.code() == ErrorCode::ZERO_RETURN => Ok(0),
            read => read,
        })
    }
}

impl Write for Tls {
    fn write(&mut self, bytes: &[u8]) -> io::Result<usize> {
        self.call(|stream| stream.ssl_write(bytes))
    }

    fn flush(&mut self) -> io::Result<()> {
        self.stream.flush()
    }
}

impl Socket for Tls {
    fn socket(&self) -> BorrowedFd<'_> {
        self.stream.get_ref().as_fd()
    }

    fn finish(&mut self) -> io::Result<()> {
        self.call(SslStream::shutdown).map(drop)
    }

    fn awaits_room(&self) -> Option<bool> {
        self.awaits_room
    }
}

/// A connection to the cache of this name, whose handshake waits no longer than this for bytes.
pub fn connect(
    connector: &SslConnector,
    address: SocketAddr,
    name: &str,
    time: Duration,
) -> io::Result<Tls> {
    let stream = TcpStream::connect_timeout(&address, time)?;
    stream.set_read_timeout(Some(time))?;
    stream.set_write_timeout(Some(time))?;
    let mut connected = connector.connect(name, stream);
    // A signal doesn't end the handshake.
    while let Err(HandshakeError::Failure(shaking)) = connected {
        match shaking.error().io_error() {
            Some(error) if error.kind() == ErrorKind::Interrupted => {
                connected = shaking.handshake();
            }
            _ => return Err(ErrorKind::PermissionDenied.into()),
        }
    }
    let tls = connected.map_err(|_| io::Error::from(ErrorKind::PermissionDenied))?;
    tls.get_ref().set_nonblocking(true)?;
    Ok(tls.into())
}

/// The connection of a router that was accepted, whose handshake is part of its reads and writes.
pub fn accepted(acceptor: &SslAcceptor, stream: TcpStream) -> io::Result<Tls> {
    let mut ssl = Ssl::new(acceptor.context())?;
    ssl.set_accept_state();
    Ok(SslStream::new(ssl, stream)?.into())
}
