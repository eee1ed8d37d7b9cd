//! A cache in threads over TLS (`secured.rs`), which `run` builds: serves the data of a file to
//! routers.
//!
//! usage: rust_cache --tls IDENTITY FILE --listen ADDRESS
//!
//! It reads the file again when it was replaced, and saves its data beside it. On standard error is
//! what `tokio_cache.rs` prints there.

mod secured;
mod served_file;

use rtr_wire::{Server, ServerOptions};
use served_file::{log, say_restored, Watched, LOOK};
use std::error::Error;
use std::thread::sleep;

fn main() -> Result<(), Box<dyn Error>> {
    let words: Vec<String> = std::env::args().collect();
    let (identity, file, address) = (&words[2], words[3].clone(), words[5].as_str());
    let server = Server::logging(ServerOptions::default(), {
        let file = file.clone();
        move |_, message, fields| log(&file, message, fields)
    });
    say_restored(&file, server.save_to(format!("{file}.kept"))?);
    let bound = server.listen_with(address, secured::taking(identity)?)?;
    eprintln!("listening on {bound}");
    let mut watched = Watched::new(&file);
    loop {
        watched.look(|data| server.update(data));
        sleep(LOOK);
    }
}
