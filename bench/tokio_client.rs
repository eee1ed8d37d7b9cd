//! A client over the crate for tokio, which clients.py builds: prints the lines of `rtr_diff` for
//! what changes, and on standard error how many payloads there are.
//!
//! usage: `tokio_client HOST:PORT [--once]`

use rtr_wire::{change_line, ClientOptions, Event};
use rtr_wire_tokio::AsyncClient;
use std::error::Error;
use std::io::{self, BufWriter, Write};

#[tokio::main(flavor = "current_thread")]
async fn main() -> Result<(), Box<dyn Error>> {
    let words: Vec<String> = std::env::args().collect();
    let mut client = AsyncClient::tcp(words[1].as_str(), ClientOptions::default());
    loop {
        match client.next().await {
            Event::Data { data, changes, .. } => {
                let mut output = BufWriter::new(io::stdout().lock());
                for unit in changes.units() {
                    writeln!(output, "{}", change_line(&unit).unwrap_or_default())?;
                }
                output.flush()?;
                eprintln!("serial {}: {} payloads", data.end().serial, data.len());
                if words.len() > 2 {
                    return Ok(());
                }
            }
            Event::Failed(error) => return Err(error.to_string().into()),
            _ => {}
        }
    }
}
