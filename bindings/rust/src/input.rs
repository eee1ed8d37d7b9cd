//! The received bytes of a connection.

use alloc::vec::Vec;

/// Received bytes of a connection that aren't consumed yet.
#[derive(Debug, Default)]
pub(crate) struct Input {
    came: Vec<u8>,
    /// The number of consumed bytes.
    taken: usize,
}

impl Input {
    /// Appends received bytes.
    pub(crate) fn add(&mut self, bytes: &[u8]) {
        self.came.drain(..self.taken);
        self.taken = 0;
        self.came.extend_from_slice(bytes);
    }

    /// Returns the bytes that aren't consumed.
    pub(crate) fn bytes(&self) -> &[u8] {
        &self.came[self.taken..]
    }

    /// Consumes the first `count` of them.
    pub(crate) fn take(&mut self, count: usize) {
        self.taken += count;
    }
}
