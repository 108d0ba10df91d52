//! Definitions as they stand, at the price of time: the plain implementation is held to them. Those that go through all circles
//! or all lists of starts are for small loops.

use plain::file::{Dependence, Loop};
use plain::legality::Place;
use plain::search::{NotFound, Request};
use plain::session::FreeRows;
use plain::{bounds, Refusal};
use std::array;
use std::collections::BTreeSet;

/// The recurrence bound as the largest quotient, rounded up, of delay by distance over the circles that pass no operation
/// twice, or 1 where that is larger; `None` where a circle of distance 0 has a delay above 0.
pub fn by_quotients(described: &Loop) -> Option<usize> {
    let mut bound = Some(1);
    for first in 0..described.operations.len() {
        follow(
            described,
            first,
            first,
            &mut vec![first],
            (0, 0),
            &mut bound,
        );
    }
    bound
}

/// Follows all ways on from an operation that pass none of those passed. Every circle is found from each of its operations.
fn follow(
    described: &Loop,
    first: usize,
    at: usize,
    passed: &mut Vec<usize>,
    (delay, distance): (i32, i32),
    bound: &mut Option<usize>,
) {
    for d in described.dependences.iter().filter(|d| d.from == at) {
        let total = (delay + d.delay, distance + d.distance);
        if d.to == first {
            *bound = bound.and_then(|bound| Some(bound.max(quotient(total)?)));
        } else if !passed.contains(&d.to) {
            passed.push(d.to);
            follow(described, first, d.to, passed, total, bound);
            passed.pop();
        }
    }
}

/// What one circle asks of the interval: nothing where its delay is not above 0.
fn quotient((delay, distance): (i32, i32)) -> Option<usize> {
    match (delay, distance) {
        (..=0, _) => Some(1),
        (_, 0) => None,
        _ => Some(((delay + distance - 1) / distance) as usize),
    }
}

/// Whether a list of starts is legal: each dependence holds, and no slot is covered twice in one row. One operation has a
/// slot in one use only, so it covers a slot twice in a row exactly where it is longer than the interval.
pub fn is_legal(described: &Loop, interval: usize, starts: &[u16]) -> bool {
    let start = |op: usize| i64::from(starts[op]);
    let all_hold = described.dependences.iter().all(|d| {
        let later = interval as i64 * i64::from(d.distance);
        start(d.to) + later >= start(d.from) + i64::from(d.delay)
    });
    let mut covered = BTreeSet::new();
    let mut covered_once = true;
    for (op, &start) in described.operations.iter().zip(starts) {
        for u in &op.uses {
            for k in 0..u.duration {
                let row = (usize::from(start) + usize::from(k)) % interval;
                covered_once &= covered.insert((u.slot, row));
            }
        }
    }
    all_hold && covered_once
}

/// The first cycle of the second of two operations, and in it the lowest slot, that is taken: by the first one or, where they
/// are one operation, by its own earlier cycles.
pub fn place(
    described: &Loop,
    interval: usize,
    starts: &[u16],
    first: usize,
    second: usize,
) -> Option<Place> {
    // The slots and rows of an operation in a cycle, by rising slot.
    let cells = |op: usize, cycle: usize| {
        let row = (usize::from(starts[op]) + cycle) % interval;
        let uses = described.operations[op].uses.iter();
        uses.filter(move |u| cycle < usize::from(u.duration))
            .map(move |u| (usize::from(u.slot), row))
    };
    (0..16).find_map(|cycle| {
        let others = if first == second { cycle } else { 16 };
        let taken: BTreeSet<_> = (0..others).flat_map(|k| cells(first, k)).collect();
        let (slot, _) = cells(second, cycle).find(|cell| taken.contains(cell))?;
        Some(Place { cycle, slot })
    })
}

/// The number of stages: one more than the largest stage of an occupied cycle, cycle by cycle.
pub fn stages(described: &Loop, interval: usize, starts: &[u16]) -> usize {
    let mut stages = 0;
    for (op, &start) in described.operations.iter().zip(starts) {
        // A latency of 0 counts as 1.
        for k in 0..usize::from(op.latency.max(1)) {
            stages = stages.max((usize::from(start) + k) / interval + 1);
        }
    }
    stages
}

/// In how many rows each slot is free, row by row.
pub fn free_rows(rows: &[u64]) -> FreeRows {
    array::from_fn(|bit| {
        let free = rows.iter().filter(|&row| row & (1 << bit) == 0);
        free.count() as u16
    })
}

/// Up to so many lists of starts are gone through.
const FEW: u64 = 3000;

/// Whether a loop has few lists of starts below a horizon.
pub fn few_lists(described: &Loop, horizon: usize) -> bool {
    let lists = (horizon as u64).checked_pow(described.operations.len() as u32);
    lists.is_some_and(|lists| lists <= FEW)
}

/// Interval, starts and probes of the schedule of a loop, or refusal 10 or 11. The loop has bounds, and the request is in
/// range.
pub fn search(described: &Loop, request: Request) -> Result<(usize, Vec<u16>, usize), NotFound> {
    let refused = |number: usize, detail: usize, probes: usize| NotFound {
        refusal: Refusal { number, detail },
        probes: Some(probes),
    };
    let mut probes = 0;
    for interval in bounds::of_loop(described)?.larger()..=request.cap {
        let (first, counted) = at_interval(described, interval, request.horizon);
        probes += counted;
        if probes > request.budget {
            return Err(refused(11, interval, request.budget));
        }
        if let Some(starts) = first {
            return Ok((interval, starts, probes));
        }
    }
    Err(refused(10, request.cap, probes))
}

/// The first of all legal lists at an interval, and the number of pairs of a legal beginning and a next start whose joined
/// list is not after the answer's beginning of that length.
fn at_interval(described: &Loop, interval: usize, horizon: usize) -> (Option<Vec<u16>>, usize) {
    let mut joined: Vec<Vec<u16>> = Vec::new();
    let mut legal = vec![vec![]];
    for length in 1..=described.operations.len() {
        let begun = beginning(described, length);
        let starts = || 0..horizon as u16;
        let longer: Vec<Vec<u16>> = legal
            .iter()
            .flat_map(|list| starts().map(move |start| [list.as_slice(), &[start]].concat()))
            .collect();
        legal = longer
            .iter()
            .filter(|list| is_legal(&begun, interval, list))
            .cloned()
            .collect();
        joined.extend(longer);
    }
    let first = legal.into_iter().min();
    let counted = joined.iter().filter(|list| match &first {
        Some(starts) => list[..] <= starts[..list.len()],
        None => true,
    });
    let probes = counted.count();
    (first, probes)
}

/// The loop of the first operations, with the dependences among them.
fn beginning(described: &Loop, length: usize) -> Loop {
    let dependences = described.dependences.iter();
    let among = |d: &&Dependence| d.from.max(d.to) < length;
    Loop {
        operations: described.operations[..length].to_vec(),
        dependences: dependences.filter(among).copied().collect(),
    }
}
