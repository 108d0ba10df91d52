// A list of session calls as mw_session takes it, and what became of the calls.

use std::collections::BTreeMap;

// How many calls a list has.
pub const CALLS: usize = 20_000;

// The kinds of calls, from 1 on, and how many of a hundred calls are of each.
const KINDS: [(&str, u64); 6] = [
    ("place", 35),
    ("force", 10),
    ("remove", 25),
    ("checkpoint", 12),
    ("release", 6),
    ("rollback", 12),
];

// Numbers that look drawn, and are the same in every run (xorshift).
struct Draw(u64);

impl Draw {
    fn below(&mut self, n: usize) -> u64 {
        self.0 ^= self.0 << 13;
        self.0 ^= self.0 >> 7;
        self.0 ^= self.0 << 17;
        self.0 % n as u64
    }

    fn kind(&mut self) -> usize {
        let mut left = self.below(100);
        let mut kind = 0;
        while left >= KINDS[kind].1 {
            left -= KINDS[kind].1;
            kind += 1;
        }
        kind
    }
}

// Calls for a loop of so many operations, with all starts below `spread`, and rollbacks to the first four checkpoints.
pub fn draw_calls(ops: usize, spread: usize) -> Vec<u64> {
    let mut draw = Draw(0x9e37_79b9_7f4a_7c15);
    let mut calls = Vec::new();
    for _ in 0..CALLS {
        let kind = draw.kind();
        let (a, b) = match KINDS[kind].0 {
            "place" | "force" => (draw.below(ops), draw.below(spread)),
            "remove" => (draw.below(ops), 0),
            "rollback" => (1 + draw.below(4), 0),
            _ => (0, 0),
        };
        calls.extend([kind as u64 + 1, a, b]);
    }
    calls
}

// What became of the calls, a row for each kind: its name, how many were made, how many accepted, and how many refused by
// which number.
pub fn told(calls: &[u64], replies: &[u64]) -> Vec<[String; 4]> {
    let row = |kind: usize| {
        let mut counts = tally(calls, replies, kind as u64 + 1);
        let made: usize = counts.values().sum();
        let accepted = counts.remove(&0).unwrap_or(0);
        let refused: Vec<String> = counts.iter().map(|(k, n)| format!("{n} by {k}")).collect();
        let name = KINDS[kind].0.to_string();
        [
            name,
            made.to_string(),
            accepted.to_string(),
            refused.join(", "),
        ]
    };
    (0..KINDS.len()).map(row).collect()
}

// The answers to the calls of one kind: how many there are of each number, 0 for those that were accepted.
fn tally(calls: &[u64], replies: &[u64], kind: u64) -> BTreeMap<u64, usize> {
    let mut counts = BTreeMap::new();
    for (call, reply) in calls.chunks(3).zip(replies.chunks(2)) {
        if call[0] == kind {
            *counts.entry(reply[0]).or_insert(0) += 1;
        }
    }
    counts
}
