//! The program of W13: "reads session files, named one a line on standard input, and prints for each a line per controller
//! of its last device, or `bad` if it can't be opened, and last a sum over all".

use std::ffi::OsStr;
use std::fs::File;
use std::io::{self, Read, Write};
use std::os::unix::ffi::OsStrExt;

use crate::lines::{play_lines, Cut};
use crate::listing::MOST_BYTES;
use crate::log::{Log, Numbers};
use crate::session::Session;

/// READINGS 13.10: a name "above 4,095 bytes" is `bad`.
const MOST_NAME_BYTES: usize = 4095;

/// Answers each name, and prints the sum last.
pub fn play<R: Read, W: Write>(names: &mut R, output: &mut W) -> io::Result<()> {
    let mut sum = Numbers::zeros();
    play_lines(names, output, MOST_NAME_BYTES, &mut |name| answer(name, &mut sum))?;
    output.write_all(format!("sum {}\n", sum).as_bytes())?;
    output.flush()
}

/// The lines of one file, whose controllers are added to the sum. One that can't be opened adds nothing (READINGS 13.9).
fn answer(name: &Cut, sum: &mut Numbers) -> String {
    match opened(name) {
        Some(mut file) => lines(&log_of(&mut file), sum),
        None => "bad\n".to_string(),
    }
}

/// No file has an empty name, or one with a 0 byte.
fn opened(name: &Cut) -> Option<File> {
    match name {
        Cut::TooLong => None,
        Cut::Line(bytes) => File::open(OsStr::from_bytes(bytes)).ok(),
    }
}

/// What a file leaves, "played as a session" whose answers nobody sees. Where it can't be read on it ends, a folder at once
/// (READINGS 13.11); the lines before have been played all the same.
fn log_of<R: Read>(file: &mut R) -> Log {
    let mut session = Session::default();
    let _ = play_lines(file, &mut io::sink(), MOST_BYTES, &mut |cut| session.answer(cut));
    session.log
}

/// "a line per controller of its last device"; where there was none, no line (READINGS 13.8).
fn lines(log: &Log, sum: &mut Numbers) -> String {
    let mut lines = String::new();
    for (id, totals) in &log.controllers {
        let numbers = totals.numbers();
        lines.push_str(&format!("{} {}\n", id, numbers));
        *sum = sum.plus(&numbers);
    }
    lines
}

#[cfg(test)]
mod tests;
