//! A cache: serves the data of a file to routers (RFC 8210).
//!
//! usage: cache FILE [--listen ADDRESS]... [--max-clients N] [--refuse]
//!
//! By default it listens at `[::]:3323`, and serves 1024 clients at once.
//!
//! The file holds a list or a recording, whose data are served; a line reports what is left out
//! of it. The cache checks the file four times a second, and reads it again when it has changed:
//! replace it by renaming another file. If a file is refused, the cache reports why, and still
//! serves the previous data; it retries to read a file that it can't read. With `--refuse` a router
//! whose data aren't known any more gets a report of code 0 instead of a cache reset.
//!
//! Data are saved to a file beside it, with `.kept` after its name, before they are served. If
//! that fails, the cache reports why, and retries after 1, 2, 4 .. seconds, up to a minute. A
//! restart serves the data of that file. If it is damaged, the cache doesn't start: remove it, and
//! give the next data a session that was never used. SIGINT and SIGTERM end the program.
//!
//! Exits with status 0 after a signal, 1 if it can't serve, 2 for wrong arguments.

use rtr_wire::{load_data, Loaded, LogFields, LogLevel, Server, ServerOptions, UpdateError};
use std::error::Error;
use std::fmt::Display;
use std::fs::{File, Metadata};
use std::io::{self, Read};
use std::os::unix::fs::MetadataExt;
use std::process::ExitCode;
use std::sync::atomic::{AtomicBool, Ordering};
use std::time::{Duration, SystemTime, UNIX_EPOCH};

/// The most bytes that a file may have.
const LARGEST: u64 = 1 << 28;
const EVERYWHERE: &str = "[::]:3323";
/// The time between two checks of the file.
const LOOK: Duration = Duration::from_millis(250);

struct Arguments {
    file: String,
    listen: Vec<String>,
    options: ServerOptions,
}

/// Reports whether an address ends with a colon and the number of a port.
fn has_port(address: &str) -> bool {
    let port = address
        .rsplit_once(':')
        .map(|(_, port)| port.parse::<u16>());
    matches!(port, Some(Ok(_)))
}

fn arguments(mut words: impl Iterator<Item = String>) -> Option<Arguments> {
    let (mut file, mut listen, mut limit) = (None, Vec::new(), None);
    let mut options = ServerOptions::default();
    while let Some(word) = words.next() {
        match word.as_str() {
            "--listen" => listen.push(words.next().filter(|address| has_port(address))?),
            "--max-clients" if limit.is_none() => {
                let count = words.next()?.parse().ok();
                limit = Some(count.filter(|count| *count > 0)?);
            }
            "--refuse" => options.refuse = true,
            _ if word.is_empty() || word.starts_with('-') || file.is_some() => return None,
            _ => file = Some(word),
        }
    }
    options.connections = limit.unwrap_or(options.connections);
    if listen.is_empty() {
        listen.push(EVERYWHERE.to_string());
    }
    Some(Arguments {
        file: file?,
        listen,
        options,
    })
}

/// Whether a signal to end the program has come.
static ENDED: AtomicBool = AtomicBool::new(false);

mod signals {
    use super::{Ordering, ENDED};

    const INTERRUPT: i32 = 2;
    const TERMINATE: i32 = 15;

    extern "C" {
        /// A function of the C library, on Linux and other systems with these numbers.
        fn signal(number: i32, handler: extern "C" fn(i32)) -> usize;
    }

    extern "C" fn end(_: i32) {
        ENDED.store(true, Ordering::Relaxed);
    }

    pub fn catch() {
        for number in [INTERRUPT, TERMINATE] {
            // SAFETY: the handler only stores to an atomic, as a handler may.
            unsafe { signal(number, end) };
        }
    }
}

/// Makes the allocator return a freed table to the system: else the program keeps the memory of
/// data that were replaced.
#[cfg(target_env = "gnu")]
fn give_back() {
    const MMAP_THRESHOLD: i32 = -3;

    extern "C" {
        /// A function of the GNU C library.
        fn mallopt(parameter: i32, value: i32) -> i32;
    }

    // SAFETY: it may be called at any time, and sets a number.
    unsafe { mallopt(MMAP_THRESHOLD, 1 << 20) };
}

#[cfg(not(target_env = "gnu"))]
fn give_back() {}

/// The time in UTC, in the form of RFC 3339.
fn time() -> String {
    let since = SystemTime::now().duration_since(UNIX_EPOCH);
    let seconds = since.unwrap_or_default().as_secs();
    let (mut days, second) = (seconds / 86400, seconds % 86400);
    let is_leap = |year: u64| year % 4 == 0 && (year % 100 != 0 || year % 400 == 0);
    let mut year = 1970;
    while days >= 365 + u64::from(is_leap(year)) {
        days -= 365 + u64::from(is_leap(year));
        year += 1;
    }
    let february = 28 + u64::from(is_leap(year));
    let mut month = 1;
    for length in [31, february, 31, 30, 31, 30, 31, 31, 30, 31, 30] {
        if days < length {
            break;
        }
        days -= length;
        month += 1;
    }
    let (hour, minute, second) = (second / 3600, second / 60 % 60, second % 60);
    let day = days + 1;
    format!("{year:04}-{month:02}-{day:02}T{hour:02}:{minute:02}:{second:02}Z")
}

/// Writes a line on standard error, with the time before it.
fn say(line: impl Display) {
    eprintln!("{} {line}", time());
}

/// What differs in a changed file: its device and inode, its size, and the times when its content
/// and its inode changed.
#[derive(Clone, Copy, PartialEq)]
struct Mark {
    inode: (u64, u64),
    links: u64,
    size: u64,
    written: (i64, i64),
    changed: (i64, i64),
}

impl Mark {
    fn of(found: &Metadata) -> Self {
        Self {
            inode: (found.dev(), found.ino()),
            links: found.nlink(),
            size: found.size(),
            written: (found.mtime(), found.mtime_nsec()),
            changed: (found.ctime(), found.ctime_nsec()),
        }
    }
}

/// The file that is served.
struct Watched<'f> {
    file: &'f str,
    /// The file in which the server saves its data for a restart.
    kept: String,
    /// The mark of the file that was read last.
    mark: Option<Mark>,
    /// The last line, if it was a failure.
    failure: Option<String>,
}

impl Watched<'_> {
    /// Serves the data from before a restart. A file that is refused may have had data that routers
    /// still have: so the server doesn't start without it.
    fn restore(&self, server: &Server) -> Result<(), String> {
        let found = server.save_to(&self.kept);
        let data = found.map_err(|error| format!("{}: {error}", self.kept))?;
        if let Some(data) = data {
            let (end, count) = (data.end(), data.len());
            say_data(&self.kept, &end.session, &end.serial, &count);
        }
        Ok(())
    }

    /// Loads the file into the server if it has changed, and prints the result.
    fn look(&mut self, server: &Server) {
        let failure = self.take(server).err();
        if let Some(text) = failure.as_ref().filter(|_| failure != self.failure) {
            say(text);
        }
        if failure.is_some() {
            self.failure = failure;
        }
    }

    /// Whether a file of this mark isn't the one that was read last. While another file is renamed
    /// to the path, the path may still lead to the old file, which has lost its last link: that
    /// alone is no change.
    fn has_changed(&self, found: Mark) -> bool {
        let replaced = self.mark.map(|mark| Mark {
            links: 0,
            changed: found.changed,
            ..mark
        });
        self.mark != Some(found) && replaced != Some(found)
    }

    /// The bytes of the file, at most one more than are allowed, if it has changed. Another file
    /// may have the path at any time: the mark is that of the file that is read.
    fn read(&mut self) -> io::Result<Option<Vec<u8>>> {
        if !self.has_changed(Mark::of(&std::fs::metadata(self.file)?)) {
            return Ok(None);
        }
        let file = File::open(self.file)?;
        let found = Mark::of(&file.metadata()?);
        if !self.has_changed(found) {
            return Ok(None);
        }
        let mut bytes = Vec::with_capacity(found.size.min(LARGEST) as usize + 1);
        file.take(LARGEST + 1).read_to_end(&mut bytes)?;
        (self.mark, self.failure) = (Some(found), None);
        Ok(Some(bytes))
    }

    /// Loads the file if it has changed, or couldn't be read the last time.
    fn take(&mut self, server: &Server) -> Result<(), String> {
        let file = self.file;
        let of_file = |error: &dyn Display| format!("{file}: {error}");
        let bytes = match self.read().map_err(|error| of_file(&error))? {
            Some(bytes) => bytes,
            None => return Ok(()),
        };
        let loaded = loaded(&bytes).map_err(|error| of_file(&error))?;
        drop(bytes);
        server.update(loaded.data).map_err(|error| match error {
            UpdateError::NotSaved(error) => format!("{}: {error}", self.kept),
            error => of_file(&error),
        })?;
        if loaded.has_cut {
            say(format_args!(
                "{}: left out: an answer without an end of data",
                self.file
            ));
        }
        Ok(())
    }
}

/// Prints which data are served.
fn say_data(file: &str, session: &dyn Display, serial: &dyn Display, payloads: &dyn Display) {
    let plural = if payloads.to_string() == "1" { "" } else { "s" };
    say(format_args!(
        "{file}: session {session} serial {serial}: {payloads} payload{plural}"
    ));
}

/// Prints what the server logs: data that it serves now, retries of a save that fail, and why
/// connections ended.
fn log(file: &str, kept: &str, level: LogLevel, message: &str, fields: &LogFields<'_>) {
    let field = |name| {
        let found = fields.iter().find(|(of, _)| *of == name);
        found.map_or_else(String::new, |(_, field)| field.to_string())
    };
    match message {
        "data" => say_data(
            file,
            &field("session"),
            &field("serial"),
            &field("payloads"),
        ),
        "ended" => say(format_args!("{}: {}", field("client"), field("error"))),
        "not saved" => say(format_args!("{kept}: {}", field("error"))),
        _ if level == LogLevel::Warn => say(format_args!("{file}: {message}")),
        _ => {}
    }
}

/// The data that a file holds.
fn loaded(bytes: &[u8]) -> Result<Loaded, Box<dyn Error>> {
    if bytes.len() as u64 > LARGEST {
        return Err(format!("more than {LARGEST} bytes").into());
    }
    Ok(load_data(bytes)?)
}

/// Serves until a signal comes.
fn serve(arguments: &Arguments) -> Result<(), Box<dyn Error>> {
    let (file, kept) = (arguments.file.clone(), format!("{}.kept", arguments.file));
    let server = Server::logging(arguments.options.clone(), {
        let kept = kept.clone();
        move |level, message, fields| log(&file, &kept, level, message, fields)
    });
    signals::catch();
    give_back();
    let mut watched = Watched {
        file: &arguments.file,
        kept,
        mark: None,
        failure: None,
    };
    watched.restore(&server)?;
    for address in &arguments.listen {
        let bound = server.listen(address.as_str());
        let bound = bound.map_err(|error| format!("{address}: {error}"))?;
        say(format_args!("listening on {bound}"));
    }
    while !ENDED.load(Ordering::Relaxed) {
        watched.look(&server);
        std::thread::sleep(LOOK);
    }
    server.stop();
    Ok(())
}

#[allow(clippy::single_match_else)] // `let else` came with Rust 1.65.
fn main() -> ExitCode {
    let arguments = match arguments(std::env::args().skip(1)) {
        Some(arguments) => arguments,
        None => {
            eprintln!("usage: cache FILE [--listen ADDRESS]... [--max-clients N] [--refuse]");
            return ExitCode::from(2);
        }
    };
    match serve(&arguments) {
        Ok(()) => ExitCode::SUCCESS,
        Err(error) => {
            say(error);
            ExitCode::FAILURE
        }
    }
}
