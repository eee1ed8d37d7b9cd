//! Prints the units of the sequence on standard input, and the length of its canonical form.

use rtr_wire::{normalise, Units};
use std::io::Read;

fn main() -> Result<(), Box<dyn std::error::Error>> {
    let mut input = Vec::new();
    std::io::stdin().read_to_end(&mut input)?;
    for unit in Units::sequence(&input, u64::MAX) {
        println!("{:?}", unit?);
    }
    let mut form = vec![0; input.len()];
    let progress = normalise(&input, &mut form, u32::MAX.into())?;
    println!(
        "payload units: {}, bytes of their form: {}",
        progress.units, progress.written
    );
    Ok(())
}
