// The library's C functions against plain Rust (bindings/plain), in one process and on the same inputs: the benchmark of
// calls. It prints a line of JSON for each row that is asked for; bench/run makes tables of them.
//
//     library TURNS ROW..
//
//     search HORIZON FILE             mw_search on a loop that uses up the 1,000,000 probes; also against bench/one_by_one.rs
//     write FILE                      mw_write with the numbers of the file's loop
//     bounds FILE                     mw_bounds
//     session INTERVAL SPREAD FILE    mw_session with 20,000 calls, all starts below SPREAD
//     open INTERVAL FILE              mw_session with no calls: what opening takes
//
//     rustc --edition 2021 -C opt-level=3 -C codegen-units=1 -L target/staticlib bench/library.rs -o target/bench/library

mod calls;
mod measure;
#[allow(dead_code)] // not all of it is measured
mod one_by_one;
#[allow(dead_code)] // not all of it is measured
#[path = "../bindings/plain/src/lib.rs"]
mod plain;
#[allow(dead_code)] // not every call is measured
mod proved;
mod sides;
#[allow(dead_code)] // not every function is measured
#[path = "../bindings/rust/src/sys.rs"]
mod sys;

use calls::{draw_calls, told, CALLS};
use measure::{number, read, timed, Side};
use proved::*;
use sides::*;
use std::hint::black_box;
use std::{env, process};

// How often a turn repeats a call that is short.
const REPEATS: usize = 20;

// What was measured: for each side, of each turn, the microseconds for one call; and what all left.
struct Measured {
    times: Vec<Vec<f64>>,
    left: Memory,
}

// The sides in turn, each time another one first; what they leave has to be the same. The first turn only brings all into
// the caches, and is not counted.
fn compare(turns: usize, repeats: usize, calls: usize, sides: &[Side]) -> Result<Measured, String> {
    let mut all = Measured {
        times: vec![Vec::new(); sides.len()],
        left: Memory::new(calls),
    };
    for turn in 0..=turns {
        for place in 0..sides.len() {
            let side = (turn + place) % sides.len();
            let mut left = Memory::new(calls);
            let time = timed(repeats, &mut left, sides[side]);
            if turn + place == 0 {
                all.left = left;
            } else if all.left != left {
                return Err("the library and plain Rust differ".to_string());
            }
            if turn > 0 {
                all.times[side].push(time);
            }
        }
    }
    Ok(all)
}

// A row: what was called, how much work one call is, the times, and for a session what became of its calls. The sides are
// plain Rust and the library, and before them, where there are three, plain Rust that pays one by one.
fn print(call: &str, work: usize, unit: &str, m: &Measured, calls: &[[String; 4]]) {
    println!(
        "{{\"call\": {call:?}, \"work\": {work}, \"unit\": {unit:?}, \"times\": {:?}, \"calls\": {calls:?}}}",
        m.times
    );
}

fn search_row(turns: usize, horizon: usize, path: &str) -> Result<(), String> {
    let (name, file) = read(path)?;
    let mut tried = Memory::new(0);
    rust_search(&file, horizon, &mut tried);
    if tried.result != 11 {
        return Err(format!("not hard: the search gives {}", tried.result));
    }
    let m = compare(
        turns,
        1,
        0,
        &[
            &|m| one_by_one_search(black_box(&file), horizon, m),
            &|m| rust_search(black_box(&file), horizon, m),
            &|m| proved_search(black_box(&file), Asked::below(horizon), m),
        ],
    )?;
    let call = format!("search, horizon {horizon}, loop {name}");
    print(&call, BUDGET, "probes", &m, &[]);
    Ok(())
}

fn write_row(turns: usize, path: &str) -> Result<(), String> {
    let (name, file) = read(path)?;
    let code = plain::file::read(&file).map_err(|refusal| format!("no loop: {refusal:?}"))?;
    let lists = Lists::of(&code);
    let m = compare(
        turns,
        REPEATS,
        0,
        &[&|m| rust_write(black_box(&lists), m), &|m| {
            proved_write(black_box(&lists), m)
        }],
    )?;
    if m.left.buffer[..file.len()] != file {
        return Err("another file is written".to_string());
    }
    let call = format!("write ({} bytes), loop {name}", file.len());
    print(&call, 1, "call", &m, &[]);
    Ok(())
}

fn bounds_row(turns: usize, path: &str) -> Result<(), String> {
    let (name, file) = read(path)?;
    let m = compare(
        turns,
        REPEATS,
        0,
        &[&|m| rust_bounds(black_box(&file), m), &|m| {
            proved_bounds(black_box(&file), m)
        }],
    )?;
    let [_, resource, recurrence, ..] = m.left.answer;
    let call = format!("bounds ({resource} and {recurrence}), loop {name}");
    print(&call, 1, "call", &m, &[]);
    Ok(())
}

fn session_row(turns: usize, interval: usize, spread: usize, path: &str) -> Result<(), String> {
    let (name, file) = read(path)?;
    let ops = plain::file::read(&file).map_or(0, |code| code.operations.len());
    let calls = draw_calls(ops, spread);
    let m = compare(
        turns,
        1,
        CALLS,
        &[
            &|m| rust_session(black_box(&file), interval, &calls, m),
            &|m| proved_session(black_box(&file), interval, &calls, m),
        ],
    )?;
    let call = format!("session, interval {interval}, starts below {spread}, loop {name}");
    print(&call, CALLS, "calls", &m, &told(&calls, &m.left.replies));
    Ok(())
}

fn open_row(turns: usize, interval: usize, path: &str) -> Result<(), String> {
    let (name, file) = read(path)?;
    let m = compare(
        turns,
        REPEATS,
        0,
        &[
            &|m| rust_session(black_box(&file), interval, &[], m),
            &|m| proved_session(black_box(&file), interval, &[], m),
        ],
    )?;
    let call = format!("session without calls, interval {interval}, loop {name}");
    print(&call, 1, "opening", &m, &[]);
    Ok(())
}

fn row(turns: usize, kind: &str, words: &[String]) -> Result<(), String> {
    match (kind, words) {
        ("search", [horizon, path]) => search_row(turns, number(horizon)?, path),
        ("write", [path]) => write_row(turns, path),
        ("bounds", [path]) => bounds_row(turns, path),
        ("session", [interval, spread, path]) => {
            session_row(turns, number(interval)?, number(spread)?, path)
        }
        ("open", [interval, path]) => open_row(turns, number(interval)?, path),
        _ => Err("no such row".to_string()),
    }
}

fn rows(words: &[String]) -> Result<(), String> {
    let [turns, rest @ ..] = words else {
        return Err("usage: library TURNS ROW..".to_string());
    };
    let turns = number(turns)?;
    let mut rest = rest;
    while let [kind, more @ ..] = rest {
        let width = match kind.as_str() {
            "write" | "bounds" => 1,
            "session" => 3,
            _ => 2,
        };
        let (own, next) = more.split_at(width.min(more.len()));
        row(turns, kind, own).map_err(|why| format!("{kind} {}: {why}", own.join(" ")))?;
        rest = next;
    }
    Ok(())
}

fn main() {
    let words: Vec<String> = env::args().skip(1).collect();
    if let Err(why) = rows(&words) {
        eprintln!("library: {why}");
        process::exit(1);
    }
}
