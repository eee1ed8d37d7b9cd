//! Bytes that are sent to several clients.

use std::fs::File;
use std::io::{self, Write};
use std::ops::Deref;
use std::os::raw::{c_char, c_int, c_uint, c_void};
use std::os::unix::fs::FileExt;
use std::os::unix::io::{AsRawFd, BorrowedFd, FromRawFd};
use std::ptr::null_mut;
use std::slice;
use std::sync::Arc;
use std::vec::Vec;

/// At least this many bytes are put into a file in memory, from which a socket sends them without a
/// copy.
const FILED: usize = 1 << 16;
/// The size of a huge page.
const HUGE_PAGE: usize = 1 << 21;

/// Bytes that don't change.
#[derive(Debug)]
pub(crate) enum Memory {
    Allocated(Vec<u8>),
    Filed(Filed),
}

impl Memory {
    /// Moves bytes to a file in memory if they are many and the system allows it.
    pub(crate) fn of(bytes: Vec<u8>) -> Memory {
        if bytes.len() < FILED {
            return Memory::Allocated(bytes);
        }
        Filed::new(&bytes).map_or(Memory::Allocated(bytes), Memory::Filed)
    }
}

impl Default for Memory {
    fn default() -> Self {
        Memory::Allocated(Vec::new())
    }
}

impl Deref for Memory {
    type Target = [u8];

    fn deref(&self) -> &[u8] {
        match self {
            Memory::Allocated(bytes) => bytes,
            Memory::Filed(filed) => filed.bytes(),
        }
    }
}

/// A part of shared bytes.
#[derive(Clone, Debug, Default)]
pub(crate) struct Body {
    memory: Arc<Memory>,
    offset: usize,
    length: usize,
}

impl Body {
    /// Makes a body of all of these bytes.
    pub(crate) fn of(memory: Memory) -> Body {
        let length = memory.len();
        Body::part(Arc::new(memory), 0, length)
    }

    /// Makes a body of `length` of these bytes, from an offset on. The memory must have as many.
    pub(crate) fn part(memory: Arc<Memory>, offset: usize, length: usize) -> Body {
        Body {
            memory,
            offset,
            length,
        }
    }

    /// Returns `length` bytes of this part, from an offset on.
    pub(crate) fn within(&self, offset: usize, length: usize) -> Body {
        Body::part(Arc::clone(&self.memory), self.offset + offset, length)
    }

    /// Returns the file that holds them, and their offset there, if they are in one.
    pub(crate) fn file(&self) -> Option<(&File, usize)> {
        match &*self.memory {
            Memory::Allocated(_) => None,
            Memory::Filed(filed) => Some((&filed.file, self.offset)),
        }
    }
}

impl Deref for Body {
    type Target = [u8];

    fn deref(&self) -> &[u8] {
        &self.memory[self.offset..][..self.length]
    }
}

extern "C" {
    // Functions of the C library on Linux.
    fn memfd_create(name: *const c_char, flags: c_uint) -> c_int;
    fn mmap(
        at: *mut c_void,
        size: usize,
        rights: c_int,
        how: c_int,
        file: c_int,
        from: i64,
    ) -> *mut c_void;
    fn munmap(at: *mut c_void, size: usize) -> c_int;
    fn madvise(at: *mut c_void, size: usize, how: c_int) -> c_int;
    fn getrlimit(which: c_int, limit: *mut Limit) -> c_int;
    fn sendfile(socket: c_int, file: c_int, from: *mut i64, most: usize) -> isize;
    fn send(socket: c_int, bytes: *const c_void, length: usize, flags: c_int) -> isize;
}

/// A resource limit of the process: the soft and the hard limit.
#[repr(C)]
struct Limit([u64; 2]);

// Protections and flags of mmap.
const NOTHING: c_int = 0;
const READABLE: c_int = 1;
const SHARED: c_int = 0x1;
const PRIVATE: c_int = 0x2;
const FIXED: c_int = 0x10;
const ANONYMOUS: c_int = 0x20;

/// A file in memory, and the mapping of its bytes.
#[derive(Debug)]
pub(crate) struct Filed {
    file: File,
    at: *const u8,
    length: usize,
}

// SAFETY: nothing writes to the file after it was created.
unsafe impl Send for Filed {}
unsafe impl Sync for Filed {}

impl Filed {
    fn new(bytes: &[u8]) -> io::Result<Filed> {
        const CLOSED_ON_EXEC: c_uint = 1;
        // SAFETY: the name is a static, zero-terminated string.
        let descriptor = unsafe { memfd_create(b"rtr data\0".as_ptr().cast(), CLOSED_ON_EXEC) };
        if descriptor < 0 {
            return Err(io::Error::last_os_error());
        }
        // SAFETY: the descriptor was just created, and nobody else has it.
        let mut file = unsafe { File::from_raw_fd(descriptor) };
        let length = bytes.len();
        begin_huge(&file, length);
        // A single write: beyond RLIMIT_FSIZE a second one would kill the process.
        if file.write(bytes)? < length {
            return Err(io::ErrorKind::WriteZero.into());
        }
        // SAFETY: the system chooses a free address.
        let at = unsafe { mmap(null_mut(), length, READABLE, SHARED, descriptor, 0) };
        if at as isize == -1 {
            return Err(io::Error::last_os_error());
        }
        let at = at as *const u8;
        Ok(Filed { file, at, length })
    }

    fn bytes(&self) -> &[u8] {
        // SAFETY: this many bytes are mapped until this is dropped, and they don't change.
        unsafe { slice::from_raw_parts(self.at, self.length) }
    }
}

impl Drop for Filed {
    fn drop(&mut self) {
        // SAFETY: nobody has a reference to the bytes any more.
        unsafe { munmap(self.at as *mut c_void, self.length) };
    }
}

/// Gives an empty file in memory huge pages at its front, for `size` bytes; a last page less than
/// half full is left out. Huge pages are faster to send. `MADV_COLLAPSE` needs a byte in each page.
/// If the system has no huge pages, or a write beyond `RLIMIT_FSIZE` would kill the process, the
/// file keeps small pages.
fn begin_huge(file: &File, size: usize) {
    const COLLAPSE: c_int = 25; // since Linux 6.1
    let huge = (size + HUGE_PAGE / 2) / HUGE_PAGE * HUGE_PAGE;
    if huge == 0 || !may_be_filed(size) {
        return;
    }
    let (length, how) = (huge + HUGE_PAGE, PRIVATE | ANONYMOUS);
    // SAFETY: the system chooses a free address.
    let reserved = unsafe { mmap(null_mut(), length, NOTHING, how, -1, 0) };
    if reserved as isize == -1 {
        return;
    }
    let at = reserved.wrapping_add(reserved.align_offset(HUGE_PAGE));
    let (how, descriptor) = (SHARED | FIXED, file.as_raw_fd());
    // SAFETY: the address is in the reserved range, which nobody else uses.
    let is_mapped = unsafe { mmap(at, huge, READABLE, how, descriptor, 0) } == at;
    let mut offsets = (0..huge as u64).step_by(HUGE_PAGE);
    if is_mapped && offsets.all(|offset| file.write_at(&[0], offset).is_ok()) {
        // SAFETY: this many bytes are mapped there, and keep their values.
        unsafe { madvise(at, huge, COLLAPSE) };
    }
    // SAFETY: nobody has an address in the reserved range any more.
    unsafe { munmap(reserved, length) };
}

/// Reports whether the process may write a file of this size.
fn may_be_filed(size: usize) -> bool {
    const FILE_SIZE: c_int = 1;
    let mut limit = Limit([0; 2]);
    // SAFETY: the limit is live, borrowed mutably.
    let failed = unsafe { getrlimit(FILE_SIZE, &mut limit) } != 0;
    !failed && size as u64 <= limit.0[0]
}

/// Sends bytes of a file, from an offset on, to a socket; returns how many were sent.
pub(crate) fn send_from(
    file: BorrowedFd<'_>,
    from: u64,
    most: usize,
    socket: &impl AsRawFd,
) -> io::Result<usize> {
    let mut from = i64::try_from(from).unwrap_or(i64::MAX);
    // SAFETY: the number is live, borrowed mutably.
    let count = unsafe { sendfile(socket.as_raw_fd(), file.as_raw_fd(), &mut from, most) };
    usize::try_from(count).map_err(|_| io::Error::last_os_error())
}

/// Sends bytes that others follow at once (`MSG_MORE`), so that the system may join them in one
/// packet; returns how many were sent.
pub(crate) fn send_before(bytes: &[u8], socket: &impl AsRawFd) -> io::Result<usize> {
    const NO_SIGNAL: c_int = 0x4000;
    const MORE: c_int = 0x8000;
    let (at, length) = (bytes.as_ptr().cast(), bytes.len());
    // SAFETY: this many bytes are borrowed.
    let count = unsafe { send(socket.as_raw_fd(), at, length, NO_SIGNAL | MORE) };
    usize::try_from(count).map_err(|_| io::Error::last_os_error())
}

#[cfg(test)]
mod tests {
    use super::{Body, Memory, FILED, HUGE_PAGE};
    use std::process::Command;
    use std::string::String;
    use std::{env, vec};

    #[test]
    fn many_bytes_lie_in_a_file() {
        let more = 5 * HUGE_PAGE / 2 + 1;
        for length in [0, 1, FILED - 1, FILED, 3 * FILED + 1, HUGE_PAGE / 2, more] {
            let mut bytes = vec![7; length];
            bytes.iter_mut().step_by(5).for_each(|byte| *byte = 8);
            let body = Body::of(Memory::of(bytes.clone()));
            assert_eq!(&body[..], bytes);
            assert_eq!(body.file().is_some(), length >= FILED);
            let part = body.within(length / 3, length / 2).within(0, length / 4);
            assert_eq!(part[..], bytes[length / 3..][..length / 4]);
            let offset = part.file().map_or(length / 3, |(_, offset)| offset);
            assert_eq!(offset, length / 3);
        }
    }

    /// If the limit for files is smaller, no file is used. This needs its own process.
    #[test]
    fn many_bytes_for_a_file_lie_in_none() {
        const LIMITED: &str = "RTR_TEST_LIMITED";
        if env::var_os(LIMITED).is_some() {
            let body = Body::of(Memory::of(vec![7; 5 << 20]));
            assert!(body.file().is_none() && body[..] == vec![7; 5 << 20]);
            return;
        }
        let mut limited = Command::new("sh");
        limited.args(["-c", "ulimit -f 200; exec \"$0\" \"$@\""]);
        limited.arg(env::current_exe().unwrap()).arg("--exact");
        limited.arg("body::tests::many_bytes_for_a_file_lie_in_none");
        let output = limited.env(LIMITED, "").output().unwrap();
        let stdout = String::from_utf8_lossy(&output.stdout);
        assert!(stdout.contains("1 passed"), "{}: {stdout}", output.status);
    }
}
