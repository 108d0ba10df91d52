//! Where in the schedule an operation stands: stage, cycle and order, and the number of stages.

use super::file::Loop;

/// The stage of a start. An interval of 0 has the one stage 0.
pub fn stage(interval: usize, start: usize) -> usize {
    start.checked_div(interval).unwrap_or(0)
}

/// The cycle of a start. In the one stage of an interval of 0 it is the start.
pub fn cycle(interval: usize, start: usize) -> usize {
    start.checked_rem(interval).unwrap_or(start)
}

/// The order of an operation: how many of the same stage have a smaller cycle, or the same cycle and a smaller number.
/// An operation past the list starts at 0.
pub fn order(interval: usize, starts: &[u16], op: usize) -> usize {
    let place = |start: usize| (stage(interval, start), cycle(interval, start));
    let (own_stage, own_cycle) = place(starts.get(op).map_or(0, |&start| start.into()));
    let before = |&(other, &start): &(usize, &u16)| {
        let (stage, cycle) = place(start.into());
        stage == own_stage && (cycle, other) < (own_cycle, op)
    };
    starts.iter().enumerate().filter(before).count()
}

/// The number of stages: one more than the stage of the last occupied cycle. An operation occupies as many cycles from its
/// start on as its latency says, at least one.
pub fn stages(code: &Loop, interval: usize, starts: &[u16]) -> usize {
    let placed = code.operations.iter().zip(starts);
    let last = placed.map(|(op, &start)| usize::from(start) + usize::from(op.latency.max(1)) - 1);
    stage(interval, last.max().expect("a loop has an operation")) + 1
}
