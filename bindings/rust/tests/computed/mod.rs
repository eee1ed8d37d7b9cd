//! What a script of `tests/` computes for tests.
#![allow(dead_code)]

use rtr_wire::{Fault, PrefixRule};
use std::io::ErrorKind;
use std::process::Command;

/// The cases of the file that a setting names, or else the cases that a script prints, run with
/// these arguments; none if there is no python3.
pub fn cases(setting: &str, script: &str, arguments: &[&str]) -> Option<Vec<u8>> {
    if let Ok(path) = std::env::var(setting) {
        return Some(std::fs::read(path).expect("the file of cases is read"));
    }
    let path = format!("{}/../../tests/{script}", env!("CARGO_MANIFEST_DIR"));
    match Command::new("python3").arg(path).args(arguments).output() {
        Ok(output) => {
            let said = String::from_utf8_lossy(&output.stderr);
            assert!(output.status.success(), "{said}");
            Some(output.stdout)
        }
        Err(error) if error.kind() == ErrorKind::NotFound => {
            eprintln!("SKIPPED: there is no python3 to make cases, and {setting} names no file");
            None
        }
        Err(error) => panic!("{error}"),
    }
}

/// The detail of a fault, as `rtr.h` has it.
pub fn detail(fault: Fault) -> u8 {
    match fault {
        Fault::UnitType(detail) | Fault::UnitVersion(detail) | Fault::OtherVersion(detail) => {
            detail
        }
        Fault::Prefix(PrefixRule::LengthOver) => 1,
        Fault::Prefix(PrefixRule::MaxLengthOver) => 2,
        Fault::Prefix(PrefixRule::MaxLengthUnder) => 3,
        _ => 0,
    }
}
