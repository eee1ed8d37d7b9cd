//! The unsent bytes of a connection.

use crate::body::Body;
use std::fs::File;
use std::vec::Vec;

/// Bytes to send, and how many were sent.
#[derive(Debug)]
pub(crate) struct Output {
    head: Vec<u8>,
    /// The bytes after the head, which connections share.
    body: Body,
    sent: usize,
}

impl Output {
    /// Starts to send these bytes.
    pub(crate) fn new(head: Vec<u8>, body: Body) -> Output {
        Output {
            head,
            body,
            sent: 0,
        }
    }

    /// Returns how many bytes it has, sent or not.
    pub(crate) fn size(&self) -> usize {
        self.head.len() + self.body.len()
    }

    /// Returns the unsent bytes.
    pub(crate) fn parts(&self) -> [&[u8]; 2] {
        let head = &self.head[self.sent.min(self.head.len())..];
        [
            head,
            &self.body[self.sent.saturating_sub(self.head.len())..],
        ]
    }

    /// Returns the file that holds the body, and the offset of the first unsent byte there.
    pub(crate) fn file(&self) -> Option<(&File, usize)> {
        let (file, offset) = self.body.file()?;
        Some((file, offset + self.sent.saturating_sub(self.head.len())))
    }

    /// Records that `count` bytes were sent; returns the rest, if any is left.
    pub(crate) fn sent(mut self, count: usize) -> Option<Output> {
        self.sent += count;
        (self.sent < self.size()).then_some(self)
    }
}
