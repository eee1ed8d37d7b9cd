//! Counts what a client has allocated, exactly.

use std::alloc::{GlobalAlloc, Layout, System};
use std::env;
use std::fs::OpenOptions;
use std::io::Write;
use std::sync::atomic::{AtomicUsize, Ordering};

struct Counting;

static OBJECTS: AtomicUsize = AtomicUsize::new(0);
static BYTES: AtomicUsize = AtomicUsize::new(0);

#[global_allocator]
static ALLOCATOR: Counting = Counting;

unsafe impl GlobalAlloc for Counting {
    unsafe fn alloc(&self, layout: Layout) -> *mut u8 {
        OBJECTS.fetch_add(1, Ordering::Relaxed);
        BYTES.fetch_add(layout.size(), Ordering::Relaxed);
        System.alloc(layout)
    }

    unsafe fn dealloc(&self, memory: *mut u8, layout: Layout) {
        OBJECTS.fetch_sub(1, Ordering::Relaxed);
        BYTES.fetch_sub(layout.size(), Ordering::Relaxed);
        System.dealloc(memory, layout);
    }
}

/// Counts the ends of connections, and writes what is allocated.
pub struct Counter {
    ends: u32,
    path: Option<String>,
}

impl Counter {
    /// Counts for the file that FAULTS_MEMORY names, if it names one.
    pub fn new() -> Counter {
        Counter {
            ends: 0,
            path: env::var("FAULTS_MEMORY").ok(),
        }
    }

    /// Appends a line to the file at each hundredth end of a connection: how many objects and bytes
    /// are allocated.
    pub fn ended(&mut self) {
        self.ends += 1;
        if let (0, Some(path)) = (self.ends % 100, &self.path) {
            let (objects, bytes) = (
                OBJECTS.load(Ordering::Relaxed),
                BYTES.load(Ordering::Relaxed),
            );
            let file = OpenOptions::new().append(true).create(true).open(path);
            writeln!(file.unwrap(), "{objects} {bytes}").unwrap();
        }
    }
}

/// The milliseconds of FAULTS_PAUSE, after which the client reconnects.
pub fn pause() -> Option<u64> {
    env::var("FAULTS_PAUSE").ok()?.parse().ok()
}
