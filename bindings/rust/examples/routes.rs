//! Prints whether three routes are valid by the recording on standard input, and why one isn't.

use rtr_wire::{load_data, Data, LengthError, Route, Validity};
use std::error::Error;
use std::io::Read;
use std::net::Ipv4Addr;
use std::process::ExitCode;

/// Loads the recording on standard input.
fn load() -> Result<Data, Box<dyn Error>> {
    let mut recording = Vec::new();
    std::io::stdin().read_to_end(&mut recording)?;
    let loaded = load_data(&recording)?;
    if loaded.has_cut {
        eprintln!("routes: left out: an answer without an end of data");
    }
    Ok(loaded.data)
}

/// The lines about three routes.
fn lines(data: &Data) -> Result<Vec<String>, LengthError> {
    let routes = [
        Route::new(Ipv4Addr::new(192, 0, 2, 0), 24, 65551)?,
        Route::new(Ipv4Addr::new(192, 0, 2, 0), 27, 65551)?,
        Route::new(Ipv4Addr::new(203, 0, 113, 0), 24, 65551)?,
    ];
    let mut lines = Vec::new();
    for route in routes {
        let validity = data.validate(&route);
        lines.push(format!("{route} {validity}"));
        if validity == Validity::Invalid {
            for vrp in data.covering(&route) {
                if let Some(mismatch) = vrp.mismatch {
                    lines.push(format!("  {vrp}: {mismatch}"));
                }
            }
        }
    }
    Ok(lines)
}

fn run() -> Result<(), Box<dyn Error>> {
    for line in lines(&load()?)? {
        println!("{line}");
    }
    Ok(())
}

fn main() -> ExitCode {
    if let Err(error) = run() {
        eprintln!("routes: {error}");
        return ExitCode::FAILURE;
    }
    ExitCode::SUCCESS
}
