// The program `schedule` in plain Rust, with nothing proved: the other sides of the benchmark of programs. It reads a loop file
// from standard input and prints what `schedule` prints. With the word `one-by-one` it pays for starts one by one
// (bench/one_by_one.rs), else at once (bindings/plain).
//
//     rustc --edition 2021 -C opt-level=3 -C codegen-units=1 bench/search.rs -o target/bench/search

#[allow(dead_code)] // only the search of a loop is used here
mod one_by_one;
#[allow(dead_code)] // not all of it is used here
#[path = "../bindings/plain/src/lib.rs"]
mod plain;

use plain::file::{read, FILE_MOST};
use plain::places::{cycle, order, stage};
use plain::search::{of_loop, Found, NotFound, Request};
use plain::LONGEST;
use std::env;
use std::io::{self, BufWriter, Read, Write};

// The request that `schedule` makes.
const ASKED: Request = Request {
    cap: 4096,
    horizon: 256,
    budget: 1_000_000,
};

// The schedule of a file: what was found, and the start of each operation.
fn schedule(file: &[u8], slowly: bool) -> Result<(Found, Vec<u16>), NotFound> {
    let code = read(file)?;
    let mut starts = vec![0; code.operations.len()];
    let mut rows = vec![0; LONGEST];
    let found = if slowly {
        one_by_one::of_loop(&code, ASKED, &mut starts, &mut rows)?
    } else {
        of_loop(&code, ASKED, &mut starts, &mut rows)?
    };
    Ok((found, starts))
}

fn print(out: &mut impl Write, found: &Found, starts: &[u16]) -> io::Result<()> {
    writeln!(
        out,
        "interval {} resource {} recurrence {} stages {} probes {}",
        found.interval, found.bounds.resource, found.bounds.recurrence, found.stages, found.probes
    )?;
    for (op, &start) in starts.iter().enumerate() {
        let stage = stage(found.interval, start.into());
        let cycle = cycle(found.interval, start.into());
        let order = order(found.interval, starts, op);
        writeln!(
            out,
            "op {op} start {start} stage {stage} cycle {cycle} order {order}"
        )?;
    }
    Ok(())
}

fn main() -> io::Result<()> {
    let slowly = env::args().nth(1).is_some_and(|word| word == "one-by-one");
    let mut file = Vec::new();
    io::stdin()
        .take(FILE_MOST as u64 + 1)
        .read_to_end(&mut file)?;
    let mut out = BufWriter::new(io::stdout().lock());
    match schedule(&file, slowly) {
        Ok((found, starts)) => print(&mut out, &found, &starts)?,
        Err(none) => {
            let refusal = none.refusal;
            writeln!(out, "refused {} at {}", refusal.number, refusal.detail)?
        }
    }
    out.flush()
}
