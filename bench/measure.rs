// What the programs that measure calls share: numbers and loop files from the command line, and the time of a call.

use crate::proved::Memory;
use std::fs;
use std::hint::black_box;
use std::path::Path;
use std::time::Instant;

// A call, or one side of it.
pub type Side<'a> = &'a dyn Fn(&mut Memory);

// Microseconds for one call.
pub fn timed(repeats: usize, m: &mut Memory, call: Side) -> f64 {
    let began = Instant::now();
    for _ in 0..repeats {
        call(black_box(&mut *m));
    }
    1e6 * began.elapsed().as_secs_f64() / repeats as f64
}

// The name of a loop file, and what is in it.
pub fn read(path: &str) -> Result<(String, Vec<u8>), String> {
    let name = Path::new(path).file_stem().unwrap_or_default();
    let file = fs::read(path).map_err(|why| why.to_string())?;
    Ok((name.to_string_lossy().into_owned(), file))
}

pub fn number(text: &str) -> Result<usize, String> {
    text.parse().map_err(|_| format!("{text} is no number"))
}
