//! The transport of clients and caches in threads.

use crate::body::{send_before, send_from};
use std::boxed::Box;
use std::io::{self, Read, Write};
use std::net::{Shutdown, TcpStream};
use std::os::unix::io::{AsFd, BorrowedFd};
use std::os::unix::net::UnixStream;

/// A connection of a [`Client`](crate::Client) or a [`Server`](crate::Server): a socket, or a layer
/// over one that encrypts, such as TLS.
///
/// It must not block: a call that would fails with [`WouldBlock`](io::ErrorKind::WouldBlock). Then
/// the thread waits on the socket below: until it can be read after a read, until it can be written
/// after a write, a flush or [`finish`](Socket::finish), unless
/// [`awaits_room`](Socket::awaits_room) says something else.
///
/// ```
/// use rtr_wire::Socket;
/// use std::io::{self, Read, Write};
/// use std::net::{Shutdown, TcpStream};
/// use std::os::unix::io::{AsFd, BorrowedFd};
///
/// /// A toy transport: each byte is inverted.
/// struct Hidden(TcpStream);
///
/// impl Read for Hidden {
///     fn read(&mut self, bytes: &mut [u8]) -> io::Result<usize> {
///         let count = self.0.read(bytes)?;
///         bytes[..count].iter_mut().for_each(|byte| *byte = !*byte);
///         Ok(count)
///     }
/// }
///
/// impl Write for Hidden {
///     fn write(&mut self, bytes: &[u8]) -> io::Result<usize> {
///         let hidden: Vec<u8> = bytes.iter().map(|byte| !byte).collect();
///         self.0.write(&hidden)
///     }
///
///     fn flush(&mut self) -> io::Result<()> {
///         Ok(())
///     }
/// }
///
/// impl Socket for Hidden {
///     fn socket(&self) -> BorrowedFd<'_> {
///         self.0.as_fd()
///     }
///
///     fn finish(&mut self) -> io::Result<()> {
///         self.0.shutdown(Shutdown::Write)
///     }
/// }
/// ```
pub trait Socket: Read + Write + Send {
    /// Returns the socket below.
    fn socket(&self) -> BorrowedFd<'_>;

    /// Shuts the connection down for writing. It is called again if it would have blocked.
    ///
    /// # Errors
    ///
    /// Those of the socket.
    fn finish(&mut self) -> io::Result<()>;

    /// Returns what the last call, which would have blocked, waits for, if that isn't what the call
    /// suggests: whether the socket below can be written, or else can be read. TLS also writes in
    /// reads, and reads in writes, while it shakes hands.
    fn awaits_room(&self) -> Option<bool> {
        None
    }

    /// Sends bytes of a file without a copy, as sendfile does, and returns how many were sent. A
    /// transport that encrypts can't, and keeps the default.
    fn send_file(
        &mut self,
        file: BorrowedFd<'_>,
        from: u64,
        most: usize,
    ) -> Option<io::Result<usize>> {
        let _ = (file, from, most);
        None
    }

    /// Writes bytes that those of a file follow at once ([`Socket::send_file`]). TCP can wait for
    /// these before it sends a packet; the default writes.
    ///
    /// # Errors
    ///
    /// Those of the socket.
    fn write_before_file(&mut self, bytes: &[u8]) -> io::Result<usize> {
        self.write(bytes)
    }
}

impl Socket for TcpStream {
    fn socket(&self) -> BorrowedFd<'_> {
        self.as_fd()
    }

    fn send_file(
        &mut self,
        file: BorrowedFd<'_>,
        from: u64,
        most: usize,
    ) -> Option<io::Result<usize>> {
        Some(send_from(file, from, most, self))
    }

    fn write_before_file(&mut self, bytes: &[u8]) -> io::Result<usize> {
        send_before(bytes, self)
    }

    fn finish(&mut self) -> io::Result<()> {
        self.shutdown(Shutdown::Write)
    }
}

impl Socket for UnixStream {
    fn socket(&self) -> BorrowedFd<'_> {
        self.as_fd()
    }

    fn finish(&mut self) -> io::Result<()> {
        self.shutdown(Shutdown::Write)
    }
}

impl Socket for Box<dyn Socket> {
    fn socket(&self) -> BorrowedFd<'_> {
        (**self).socket()
    }

    fn finish(&mut self) -> io::Result<()> {
        (**self).finish()
    }

    fn awaits_room(&self) -> Option<bool> {
        (**self).awaits_room()
    }

    fn send_file(
        &mut self,
        file: BorrowedFd<'_>,
        from: u64,
        most: usize,
    ) -> Option<io::Result<usize>> {
        (**self).send_file(file, from, most)
    }

    fn write_before_file(&mut self, bytes: &[u8]) -> io::Result<usize> {
        (**self).write_before_file(bytes)
    }
}
