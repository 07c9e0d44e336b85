//! The second program: reads a session listing from standard input to its end and writes the answers to standard
//! output; with `--shelf` a shelf listing, and with `--records` or `--reports` cases with records or reports of any
//! kind instead of a listing; with `--log` it reads the names of session files and writes their numbers for the log.
//! Written from the documents alone, as an independent check of the proved core (see README.md).

mod cases;
mod device;
mod lines;
mod listing;
mod little_endian;
mod log;
mod migration_log;
mod queue;
mod records;
mod report;
mod reports;
mod rules;
mod session;
mod settings_file;
mod shelf;
mod state;
mod structure;
#[cfg(test)]
mod tests;

use std::env;
use std::io::{self, BufWriter, Write};
use std::process::ExitCode;

fn main() -> ExitCode {
    let mut input = io::stdin().lock();
    let mut output = BufWriter::new(io::stdout().lock());
    let argument = env::args_os().nth(1).unwrap_or_default();
    let played = match argument.to_str() {
        Some("--shelf") => shelf::play(&mut input, &mut output),
        Some("--records") => records::play(&mut input, &mut output),
        Some("--reports") => reports::play(&mut input, &mut output),
        Some("--log") => migration_log::play(&mut input, &mut output),
        _ => session::play(&mut input, &mut output),
    };
    match played {
        Ok(()) => ExitCode::SUCCESS,
        Err(error) => {
            // Nothing is left to be told if standard error is gone as well.
            let _ = writeln!(io::stderr(), "second: {}", error);
            ExitCode::FAILURE
        }
    }
}
