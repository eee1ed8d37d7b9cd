//! What the caches of this folder serve: the data of a file, which they read again when it was
//! replaced.

use rtr_wire::{load_data, Data, LogFields, UpdateError};
use std::fs;
use std::io;
use std::os::unix::fs::MetadataExt;
use std::time::Duration;

/// The time between two checks of the file.
pub const LOOK: Duration = Duration::from_millis(100);

/// Prints what a server logs: data that it serves now, retries of a save that fail, and why
/// connections ended.
pub fn log(file: &str, message: &str, fields: &LogFields<'_>) {
    let field = |name| {
        let found = fields.iter().find(|(of, _)| *of == name);
        found.map_or_else(String::new, |(_, field)| field.to_string())
    };
    match message {
        "data" => {
            let (session, serial) = (field("session"), field("serial"));
            eprintln!(
                "{file}: session {session} serial {serial}: {} payloads",
                field("payloads")
            );
        }
        "ended" => eprintln!("{}: {}", field("client"), field("error")),
        "not saved" => eprintln!("{file}.kept: {}", field("error")),
        _ => {}
    }
}

/// Prints which data a file had from an earlier start, if it had some.
pub fn say_restored(file: &str, restored: Option<Data>) {
    if let Some(data) = restored {
        let (end, count) = (data.end(), data.len());
        eprintln!(
            "{file}.kept: session {} serial {}: {count} payloads",
            end.session, end.serial
        );
    }
}

/// A file, and what was seen of it.
pub struct Watched {
    file: String,
    inode: u64,
    failure: String,
}

impl Watched {
    pub fn new(file: &str) -> Watched {
        let (file, failure) = (file.to_string(), String::new());
        Watched {
            file,
            inode: 0,
            failure,
        }
    }

    /// Gives the data of the file to a server, if it was replaced. A failure to read it is printed
    /// once.
    pub fn look(&mut self, update: impl Fn(Data) -> Result<bool, UpdateError>) {
        match self.load(update) {
            Ok(loaded) => (self.inode, self.failure) = (loaded, String::new()),
            Err(error) if error.to_string() == self.failure => {}
            Err(error) => {
                self.failure = error.to_string();
                eprintln!("{}: {error}", self.file);
            }
        }
    }

    /// Loads the file if its inode is another one, and returns its inode.
    fn load(&self, update: impl Fn(Data) -> Result<bool, UpdateError>) -> io::Result<u64> {
        let found = fs::metadata(&self.file)?.ino();
        if found != self.inode {
            let loaded = load_data(&fs::read(&self.file)?);
            match update(loaded.expect("a list of data").data) {
                Err(UpdateError::NotSaved(error)) => eprintln!("{}.kept: {error}", self.file),
                updated => drop(updated.expect("later data")),
            }
        }
        Ok(found)
    }
}
