//! What the writer refuses lists of numbers for, in words, so that each reason is counted.

use crate::random::lists::Lists;
use plain::Refusal;
use std::ops::RangeInclusive;

/// The number of an operation's first use among all.
pub fn first_use(lists: &Lists, op: usize) -> usize {
    let numbers = lists.ops[..2 * op].iter().skip(1).step_by(2);
    numbers.sum::<i32>() as usize
}

/// What a refusal is for, in words.
pub fn reason(lists: &Lists, room: usize, refusal: Refusal) -> String {
    let Refusal { number, detail } = refusal;
    let what = match number {
        3 | 20 => wrong_length(lists, room, refusal),
        4 => wrong_value(&lists.ops[2 * detail..], &OPERATION),
        5 if lists.uses.len() != 2 * first_use(lists, lists.ops.len() / 2) => {
            wrong_length(lists, room, refusal)
        }
        // Where slot and duration are in range, it is the slot all the same.
        5 => wrong_value(&lists.uses[2 * detail..], &USE).or(Some("slot that does not rise")),
        6 => wrong_value(&lists.deps[4 * detail..], &dependence(lists.ops.len() / 2)),
        _ => None,
    };
    let what = what.unwrap_or_else(|| panic!("{refusal:?} of {lists:?} in {room}"));
    format!("{number:2} {what}")
}

/// What is wrong with the length of a list or of the buffer.
fn wrong_length(lists: &Lists, room: usize, refusal: Refusal) -> Option<&'static str> {
    let Lists { ops, uses, deps } = lists;
    Some(match (refusal.number, refusal.detail) {
        (3, 2) if ops.is_empty() => "no operation",
        (3, 2) if ops.len() % 2 != 0 => "half an operation",
        (3, 2) => "too many operations",
        (3, 18) if deps.len() % 4 != 0 => "part of a dependence",
        (3, 18) => "too many dependences",
        (5, _) if uses.len() % 2 != 0 => "half a use",
        (5, _) if uses.len() < 2 * first_use(lists, ops.len() / 2) => "too few uses",
        (5, _) => "too many uses",
        (20, 0) => "no buffer",
        (20, _) if room + 1 == lists.file_length() => "buffer that is a byte short",
        (20, _) => "buffer that is short",
        _ => return None,
    })
}

/// A value of a record: its range, and what it is called below and above that.
type Value = (RangeInclusive<i32>, &'static str, &'static str);

const OPERATION: [Value; 2] = [
    (0..=64, "latency below", "latency above"),
    (0..=4, "number of uses below", "number of uses above"),
];

const USE: [Value; 2] = [
    (1..=24, "slot below", "slot above"),
    (1..=16, "duration below", "duration above"),
];

fn dependence(operations: usize) -> [Value; 4] {
    let last = operations as i32 - 1;
    [
        (0..=last, "from below", "from above"),
        (0..=last, "to below", "to above"),
        (-64..=64, "delay below", "delay above"),
        (0..=15, "distance below", "distance above"),
    ]
}

/// The first value of a record that is out of its range.
fn wrong_value(record: &[i32], values: &[Value]) -> Option<&'static str> {
    let mut values = record.iter().zip(values);
    let (value, (range, below, above)) = values.find(|(value, of)| !of.0.contains(value))?;
    Some(if value < range.start() { below } else { above })
}

/// Every reason of [`reason`].
pub const REASONS: [&str; 27] = [
    " 3 half an operation",
    " 3 no operation",
    " 3 too many operations",
    " 3 part of a dependence",
    " 3 too many dependences",
    " 4 latency below",
    " 4 latency above",
    " 4 number of uses below",
    " 4 number of uses above",
    " 5 half a use",
    " 5 too few uses",
    " 5 too many uses",
    " 5 slot below",
    " 5 slot above",
    " 5 slot that does not rise",
    " 5 duration below",
    " 5 duration above",
    " 6 from below",
    " 6 from above",
    " 6 to below",
    " 6 to above",
    " 6 delay below",
    " 6 delay above",
    " 6 distance below",
    " 6 distance above",
    "20 no buffer",
    "20 buffer that is a byte short",
];
