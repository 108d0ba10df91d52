//! Prints the schedule of a loop file, or the refusal, as the program `schedule` of the repository does.
//!
//!     cargo run --example schedule FILE
//!
//! The status is 0 where the file was read and the answer printed, schedule or refusal, and else 1.

use std::env;
use std::ffi::OsStr;
use std::fs::File;
use std::io::{self, Read, Write};
use std::process::ExitCode;

use mwelitunga::{search, Request, FILE_MOST};

fn main() -> ExitCode {
    let mut words = env::args_os().skip(1);
    let (Some(name), None) = (words.next(), words.next()) else {
        eprintln!("usage: schedule FILE");
        return ExitCode::FAILURE;
    };
    match run(&name) {
        Ok(()) => ExitCode::SUCCESS,
        Err(message) => {
            eprintln!("schedule: {message}");
            ExitCode::FAILURE
        }
    }
}

/// Reads a file and prints what is to be said of it, or says why not.
fn run(name: &OsStr) -> Result<(), String> {
    let file = contents(name)
        .map_err(|error| format!("cannot read {}: {error}", name.to_string_lossy()))?;
    writeln!(io::stdout(), "{}", listing(&file)).map_err(|error| format!("cannot print: {error}"))
}

/// The bytes of a file, up to one more than the largest loop file has: a longer file is then seen to be longer.
fn contents(name: &OsStr) -> io::Result<Vec<u8>> {
    let mut file = Vec::new();
    let most = FILE_MOST as u64 + 1;
    File::open(name)?.take(most).read_to_end(&mut file)?;
    Ok(file)
}

/// What is printed of a file.
fn listing(file: &[u8]) -> String {
    match search(file, Request::default()) {
        Ok(schedule) => schedule.to_string(),
        Err(error) => format!(
            "refused {} at {}",
            error.refusal.number, error.refusal.detail
        ),
    }
}
