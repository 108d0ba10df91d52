//! The search, with its lent list and table.

use crate::lent::{self, Lent};
use crate::random::{self, damage, loops, Random};
use crate::tally::Tally;
use crate::{definitions, expected, safe};
use mwelitunga::{sys, Schedule};
use plain::file::{read, Loop};
use plain::search::{search, Found, NotFound, Request};
use plain::writer::write;

/// The rows that a search asks for.
pub const ROWS: usize = 4096;

/// What is lent to a search or a plan.
#[derive(Clone, PartialEq)]
pub struct Memory {
    pub starts: Lent<u16>,
    pub rows: Lent<u64>,
}

impl Memory {
    /// Enough mostly, of exactly the length that is needed or longer; too short at times.
    pub fn new(random: &mut Random, operations: usize) -> Memory {
        let starts = match random.below(12) {
            0 => random.below(operations + 1),
            1..=5 => operations,
            6 => operations + random.below(5),
            _ => 64,
        };
        let rows = match random.below(12) {
            0 => random.one_of(&[0, 1, 64, 4000, 4095]),
            1..=2 => ROWS + random.within(1..=100),
            _ => ROWS,
        };
        Memory {
            starts: Lent::new(random, starts),
            rows: Lent::new(random, rows),
        }
    }

    /// Calls a C function with it.
    pub fn schedule(
        &mut self,
        scheduler: lent::Scheduler,
        random: &mut Random,
        file: &[u8],
        request: mwelitunga::Request,
    ) -> lent::Told {
        let (starts, rows) = (&mut self.starts, &mut self.rows);
        lent::schedule(scheduler, random, file, request, starts, rows)
    }
}

/// A request for a small loop: few probes mostly, so that a case is over soon.
pub fn any_request(random: &mut Random) -> Request {
    let mut request = Request {
        cap: match random.below(4) {
            0 => 4096,
            _ => random.within(1..=24),
        },
        horizon: match random.below(10) {
            0 => random.within(13..=64),
            1 => random.one_of(&[256, 4096]),
            _ => random.within(1..=12),
        },
        budget: match random.below(2) {
            0 => random.up_to_bits(13),
            _ => random.within(2000..=8000),
        },
    };
    match random.below(30) {
        0 => request.cap = random.extreme(),
        1 => request.horizon = random.extreme(),
        2 => request.budget = random.one_of(&[0, 1_000_001, usize::MAX, 1 << 32]),
        3 => {
            request.cap = random.extreme();
            request.horizon = random.extreme();
            request.budget = 0;
        }
        _ => (),
    }
    request
}

/// What the C function tells.
pub fn told(plain: &Result<Found, NotFound>) -> lent::Told {
    let mut told = expected(&plain.map_err(|none| none.refusal), |found| {
        vec![
            found.interval,
            found.bounds.resource,
            found.bounds.recurrence,
            found.stages,
            found.probes,
        ]
    });
    if let Err(none) = plain {
        told.1[5] = none.probes.unwrap_or(0) as u64;
    }
    told
}

/// What the simple function answers for a schedule whose starts stand first in a list.
fn schedule(file: &[u8], found: Found, list: &[u16]) -> Schedule {
    let code = read(file).expect("a file that has a schedule is a loop file");
    Schedule {
        interval: found.interval,
        bounds: safe::bounds(found.bounds),
        stages: found.stages,
        probes: found.probes,
        starts: list[..code.operations.len()].to_vec(),
    }
}

fn count(tally: &mut Tally, plain: &Result<Schedule, NotFound>) {
    tally.result("found", &plain.as_ref().map_err(|none| none.refusal));
    if let Ok(schedule) = plain {
        if schedule.interval > schedule.bounds.larger() {
            tally.count("found above the bounds");
        }
        if schedule.starts.len() > 8 {
            tally.count("found for more than 8 operations");
        }
    }
}

/// Compares the number of stages with the definition. Two wrong rules are counted where they would say another number: the
/// stage of the largest start + latency, which is one too many, and that of the cycle before, with latency 0 taken as 0.
fn compare_stages(file: &[u8], schedule: &Schedule, tally: &mut Tally) {
    let code = read(file).expect("a file that has a schedule is a loop file");
    let (interval, starts) = (schedule.interval, &schedule.starts);
    let stages = definitions::stages(&code, interval, starts);
    assert_eq!(
        schedule.stages, stages,
        "{starts:?} at {interval}, {code:?}"
    );
    let ends = code.operations.iter().zip(starts);
    let ends = ends.map(|(op, &start)| usize::from(start) + usize::from(op.latency));
    let end = ends.max().expect("a loop has an operation");
    if end == interval * stages {
        tally.count("cycle after the last stage");
    }
    if end <= interval * (stages - 1) {
        tally.count("last stage by a latency of 0");
    }
}

/// Compares what the plain search came to with the definition, where it was made and the loop has few lists of starts.
fn compare_defined(
    file: &[u8],
    request: Request,
    plain: &Result<Schedule, NotFound>,
    tally: &mut Tally,
) {
    let answered = match plain {
        Ok(schedule) => Ok((schedule.interval, schedule.starts.clone(), schedule.probes)),
        Err(none) if none.probes.is_some() => Err(*none),
        Err(_) => return,
    };
    let code = read(file).expect("a file that was searched is a loop file");
    if definitions::few_lists(&code, request.horizon) {
        let defined = definitions::search(&code, request);
        assert_eq!(answered, defined, "{request:?}, {code:?}");
        tally.count("compared with the definition");
    }
}

/// Searches once in each way, and compares answers and memory.
fn compare(
    random: &mut Random,
    described: &Loop,
    file: &[u8],
    request: Request,
    tally: &mut Tally,
) {
    let mut memory = Memory::new(random, described.operations.len());
    let (mut again, mut left) = (memory.clone(), memory.clone());
    let (list, table) = (memory.starts.part().len(), memory.rows.part().len());
    let case = format!("{request:?}, list {list}, table {table}, {described:?}");
    let plain = search(file, request, left.starts.part(), left.rows.part());

    let asked = safe::request(request);
    let raw = memory.schedule(sys::mw_search, random, file, asked);
    assert_eq!(raw, told(&plain), "{case}");
    assert!(memory == left, "other memory is left: {case}");

    let answered = mwelitunga::search_in(file, asked, again.starts.part(), again.rows.part());
    let expected = plain.map(safe::found).map_err(safe::not_found);
    assert_eq!(answered, expected, "{case}");
    assert!(again == left, "other memory is left: {case}");

    let plain = plain.map(|found| schedule(file, found, left.starts.part()));
    count(tally, &plain);
    if let Ok(schedule) = &plain {
        compare_stages(file, schedule, tally);
    }
    compare_defined(file, request, &plain, tally);
    // The simple function lends enough always.
    if !matches!(plain, Err(none) if none.refusal.number == 20) {
        let expected = plain.map_err(safe::not_found);
        assert_eq!(mwelitunga::search(file, asked), expected, "{case}");
    }
}

#[test]
fn searches() {
    let mut tally = Tally::new("search");
    random::cases("searches", 50_000, |random| {
        let described = if random.once_in(4) {
            loops::tied(random)
        } else {
            loops::small(random)
        };
        let file = damage::mostly_whole(random, &described);
        let request = any_request(random);
        compare(random, &described, &file, request, &mut tally);
    });
    tally.print();
    tally.at_least(5000, "found");
    tally.at_least(200, "found above the bounds");
    tally.refusals_at_least(100, &[1, 2, 3, 4, 5, 6]);
    tally.refusals_at_least(500, &[7, 8, 10, 11, 20]);
    tally.at_least(5000, "compared with the definition");
    tally.at_least(500, "cycle after the last stage");
    tally.at_least(100, "last stage by a latency of 0");
}

/// Long searches of loops of up to 64 operations, and of small ones with the largest budget.
#[test]
fn long_searches() {
    let mut tally = Tally::new("long");
    random::cases("long searches", 2000, |random| {
        let (described, budget) = if random.once_in(10) {
            (loops::small(random), 1_000_000)
        } else {
            (loops::large(random), random.one_of(&[1000, 5000, 10_000]))
        };
        let request = Request {
            cap: random.one_of(&[64, 4096]),
            horizon: random.one_of(&[6, 16, 64, 256, 4096]),
            budget,
        };
        let file = write(&described);
        compare(random, &described, &file, request, &mut tally);
    });
    tally.print();
    tally.at_least(100, "found");
    tally.at_least(30, "found for more than 8 operations");
    tally.refusals_at_least(20, &[8, 10, 11]);
}
