//! What the ends of a connection share in the repository's tests.
#![allow(dead_code)]

use std::fmt::Write as _;
use std::format;
use std::fs::File;
use std::io::{BufRead, Write};
use std::path::Path;
use std::process::Command;
use std::string::String;
use std::vec::Vec;

pub fn hex(bytes: &[u8]) -> String {
    let mut digits = String::new();
    for byte in bytes {
        write!(digits, "{byte:02x}").unwrap();
    }
    digits
}

pub fn bytes_of(words: &[&str]) -> Vec<u8> {
    let digits = words.concat();
    let byte = |at| u8::from_str_radix(&digits[at..at + 2], 16).expect("hexadecimal");
    (0..digits.len()).step_by(2).map(byte).collect()
}

/// Plays the scenes of these words, as `router` or `cache`, by the end that is a test of this
/// program.
pub fn play(words: &[&str], test: &str) {
    let above = Path::new(env!("CARGO_MANIFEST_DIR")).ancestors();
    let mut above = above.map(|top| top.join("tests").join("transcripts").join("play.py"));
    let player = match above.find(|player| player.is_file()) {
        Some(player) => player,
        None => return std::println!("no scenes here: they are in the repository"),
    };
    let program = std::env::current_exe().unwrap();
    let mut python = Command::new("python3");
    let command = python.arg(player).args(words).arg(program);
    match command.args(["--exact", test]).status() {
        Ok(status) => assert!(status.success(), "a scene differs"),
        Err(error) => std::println!("no python3, so no scenes: {error}"),
    }
}

/// Calls a function with the words of each line of standard input, and writes what it returns to
/// the file that the environment names. Does nothing without such a file.
pub fn each_line(mut line: impl FnMut(&[&str]) -> Option<String>) {
    let mut answers = match std::env::var("RTR_JOINED") {
        Ok(path) => File::create(path).unwrap(),
        Err(_) => return,
    };
    for text in std::io::stdin().lock().lines() {
        let text = text.unwrap();
        let words: Vec<&str> = text.split_whitespace().collect();
        if let Some(answer) = line(&words) {
            answers.write_all(answer.as_bytes()).unwrap();
        }
    }
}

/// Formats an answer: steps, each with its line feed, and when the end acts by itself.
pub fn answer(steps: &mut String, wakes: u64) -> String {
    format!("{}wakes {wakes}\n", std::mem::take(steps))
}
