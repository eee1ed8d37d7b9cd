//! A cache over the crate for tokio, which `run` builds: serves the data of a file to routers.
//!
//! usage: tokio_cache [--tls IDENTITY] FILE --listen ADDRESS
//!
//! It reads the file again when it was replaced, and saves its data beside it, as the example of
//! the crate rtr-wire does. On standard error is where it listens, which data it serves, why data
//! aren't saved or can't be read, and why a connection ended. If it is built for TLS, it takes that
//! (`secured.rs`).

#[cfg(feature = "tls")]
mod secured;
mod served_file;

use rtr_wire::ServerOptions;
use rtr_wire_tokio::AsyncServer;
use served_file::{log, say_restored, Watched, LOOK};
use std::error::Error;
use tokio::net::TcpListener;

/// Follows the file.
async fn follow(server: AsyncServer, file: String) -> Result<(), Box<dyn Error>> {
    let mut watched = Watched::new(&file);
    loop {
        watched.look(|data| server.update(data));
        tokio::time::sleep(LOOK).await;
    }
}

#[tokio::main(worker_threads = 2)]
async fn main() -> Result<(), Box<dyn Error>> {
    let skipped = if cfg!(feature = "tls") { 2 } else { 0 };
    let words: Vec<String> = std::env::args().skip(skipped).collect();
    let file = words[1].clone();
    let server = AsyncServer::logging(ServerOptions::default(), {
        let file = file.clone();
        move |_, message, fields| log(&file, message, fields)
    });
    say_restored(&file, server.save_to(format!("{file}.kept"))?);
    let listener = TcpListener::bind(&words[3]).await?;
    let address = listener.local_addr()?;
    #[cfg(not(feature = "tls"))]
    let serving = server.serve(listener);
    #[cfg(feature = "tls")]
    let serving = server.serve_with(listener, secured::shaking(&words[0])?);
    let following = async {
        eprintln!("listening on {address}");
        follow(server.clone(), file).await
    };
    tokio::select! {
        biased; // the server has all its descriptors before the line
        ended = serving => Ok(ended?),
        failed = following => failed,
    }
}
