//! The session: lists of calls, with everything that is lent to a replay.

use crate::lent::{self, Lent, SessionMemory};
use crate::random::calls::{self, About};
use crate::random::{self, damage, loops, Random};
use crate::tally::Tally;
use crate::{definitions, expected, safe};
use mwelitunga::{Call, Replay, Reply};
use plain::file::read;
use plain::replay::{replay, Replayed};
use plain::session::NOT_PLACED;
use plain::Refusal;

/// A file with the interval and the horizon of a session on it.
struct Opening {
    file: Vec<u8>,
    interval: usize,
    horizon: usize,
}

impl Opening {
    fn numbers(&self) -> [usize; 2] {
        [self.interval, self.horizon]
    }
}

/// Memory for a replay: enough mostly, of exactly the length that is needed or longer; too short at times.
fn any_memory(random: &mut Random, opening: &Opening, calls: &[u64]) -> SessionMemory {
    let (rows, replies) = (opening.interval.min(4096), 2 * (calls.len() / 3));
    let rows = match random.below(14) {
        0 => random.below(rows + 1),
        1 => rows.saturating_sub(1),
        2..=4 => rows + random.within(1..=10),
        _ => rows,
    };
    let replies = match random.below(14) {
        0 => random.below(replies + 1),
        1 => replies.saturating_sub(1),
        2..=4 => replies + random.within(1..=10),
        _ => replies,
    };
    SessionMemory {
        rows: Lent::new(random, rows),
        replies: Lent::new(random, replies),
        starts: Lent::new(random, 64),
        free_rows: Lent::new(random, 24),
    }
}

/// The replay of the plain implementation.
fn plain_replay(
    opening: &Opening,
    calls: &[u64],
    memory: &mut SessionMemory,
) -> Result<Replayed, Refusal> {
    let starts = memory.starts.part();
    let free_rows = memory.free_rows.part();
    replay(
        &opening.file,
        opening.numbers(),
        calls,
        memory.rows.part(),
        memory.replies.part(),
        starts.try_into().expect("64 starts are lent"),
        free_rows.try_into().expect("24 numbers are lent"),
    )
}

/// What the two numbers of a reply mean.
fn result(reply: &[u64]) -> Result<u64, Refusal> {
    match reply[0] {
        0 => Ok(reply[1]),
        number => Err(Refusal {
            number: number as usize,
            detail: reply[1] as usize,
        }),
    }
}

/// The calls of a list of numbers, where each is a call.
fn safe_calls(numbers: &[u64]) -> Option<Vec<Call>> {
    let calls = numbers.chunks(3).map(|call| {
        let &[kind, a, b] = call else { return None };
        let (a, b) = (a as usize, b as usize);
        Some(match kind {
            1 => Call::Place { op: a, start: b },
            2 => Call::Force { op: a, start: b },
            3 => Call::Remove { op: a },
            4 => Call::Checkpoint,
            5 => Call::Release,
            6 => Call::Rollback { checkpoint: a },
            _ => return None,
        })
    });
    calls.collect()
}

/// What the safe layer is to answer: it lends as much as is needed.
fn safe_replay(opening: &Opening, numbers: &[u64], calls: &[Call]) -> Result<Replay, Refusal> {
    let mut rows = vec![0; opening.interval.min(4096)];
    let mut replies = vec![0; 2 * calls.len()];
    let mut starts = [0; 64];
    let mut free_rows = [0; 24];
    let replayed = replay(
        &opening.file,
        opening.numbers(),
        numbers,
        &mut rows,
        &mut replies,
        &mut starts,
        &mut free_rows,
    )?;
    let operations = read(&opening.file)?.operations.len();
    let placed = |&start: &u16| (start != NOT_PLACED).then_some(start);
    let replies = calls.iter().zip(replies.chunks(2));
    Ok(Replay {
        replies: replies
            .map(|(call, reply)| safe_reply(call, reply))
            .collect(),
        starts: starts[..operations].iter().map(placed).collect(),
        checkpoints: replayed.checkpoints,
        rows,
        free_rows,
    })
}

/// The answer of the safe layer to one call.
fn safe_reply(call: &Call, reply: &[u64]) -> Result<Reply, mwelitunga::Refusal> {
    let value = result(reply).map_err(safe::refusal)?;
    Ok(match call {
        Call::Force { .. } => Reply::Displaced(value),
        Call::Checkpoint => Reply::Checkpoint(value as usize),
        _ => Reply::Done,
    })
}

/// The kinds of calls, by their numbers from 1.
const KINDS: [&str; 6] = [
    "place",
    "force",
    "remove",
    "checkpoint",
    "release",
    "rollback",
];

/// The counts of whole replays and of single calls.
struct Tallies {
    replays: Tally,
    calls: Tally,
}

impl Tallies {
    fn count(
        &mut self,
        calls: &[u64],
        plain: &Result<Replayed, Refusal>,
        left: &mut SessionMemory,
    ) {
        self.replays.result("replayed", plain);
        if plain.is_err() {
            return;
        }
        if left.free_rows.part().contains(&0) {
            self.replays.count("replayed, with a full slot");
        }
        for (call, reply) in calls.chunks(3).zip(left.replies.part().chunks(2)) {
            let answered = result(reply);
            self.calls.result(KINDS[call[0] as usize - 1], &answered);
            match (call[0], answered) {
                (2, Ok(displaced)) => self.count_displaced(displaced),
                (1 | 2, Err(refusal)) if refusal.number == 17 => {
                    self.count_conflict(call[0] == 2, refusal.detail)
                }
                _ => (),
            }
        }
    }

    fn count_conflict(&mut self, forced: bool, place: usize) {
        if forced {
            self.calls.count("force that conflicts");
        } else if place >= 32 {
            self.calls.count("place that conflicts in a later cycle");
        }
    }

    fn count_displaced(&mut self, displaced: u64) {
        if displaced != 0 {
            self.calls.count("force that displaces");
        }
        if displaced.count_ones() > 1 {
            self.calls.count("force that displaces several");
        }
        if displaced >> 32 != 0 {
            self.calls.count("force that displaces one above 31");
        }
    }
}

/// Replays a list once in each way, and compares answers and memory.
fn compare(random: &mut Random, opening: &Opening, calls: &[u64], tallies: &mut Tallies) {
    let mut memory = any_memory(random, opening, calls);
    let mut left = memory.clone();
    let plain = plain_replay(opening, calls, &mut left);
    tallies.count(calls, &plain, &mut left);
    let case = || {
        let described = read(&opening.file);
        format!("{calls:?} at {:?} of {described:?}", opening.numbers())
    };
    let told = expected(&plain, |replayed| {
        vec![replayed.calls, replayed.checkpoints]
    });
    let raw = lent::session(random, &opening.file, opening.numbers(), calls, &mut memory);
    assert_eq!(raw, told, "{}", case());
    assert_eq!(memory, left, "other memory is left: {}", case());
    if plain.is_ok() {
        let counted = definitions::free_rows(&memory.rows.part()[..opening.interval]);
        assert_eq!(*memory.free_rows.part(), counted, "{}", case());
    }

    if let Some(safe) = safe_calls(calls) {
        let plain = safe_replay(opening, calls, &safe).map_err(safe::refusal);
        let [interval, horizon] = opening.numbers();
        let answered = mwelitunga::replay(&opening.file, interval, horizon, &safe);
        assert_eq!(answered, plain, "{}", case());
    }
}

/// A session on a random loop, opened within the rules mostly, with a list of calls about it.
fn any_case(random: &mut Random) -> (Opening, Vec<u64>) {
    let described = loops::any(random);
    let mut opening = Opening {
        file: damage::mostly_whole(random, &described),
        interval: match random.below(12) {
            0 => random.one_of(&[4096, 100]),
            _ => random.within(1..=12),
        },
        horizon: match random.below(12) {
            0 => random.one_of(&[4096, 256]),
            _ => random.within(1..=40),
        },
    };
    let about = About {
        operations: described.operations.len(),
        interval: opening.interval,
        horizon: opening.horizon,
    };
    let calls = calls::any(random, &about);
    if random.once_in(16) {
        opening.interval = random.extreme();
    }
    if random.once_in(16) {
        opening.horizon = random.extreme();
    }
    (opening, calls)
}

#[test]
fn sessions() {
    let mut tallies = Tallies {
        replays: Tally::new("replay"),
        calls: Tally::new("calls"),
    };
    random::cases("sessions", 40_000, |random| {
        let (opening, calls) = any_case(random);
        compare(random, &opening, &calls, &mut tallies);
        if random.once_in(10) {
            // What the list leaves after each of its calls.
            for number in 0..calls.len() / 3 {
                compare(random, &opening, &calls[..3 * number], &mut tallies);
            }
        }
    });
    tallies.replays.print();
    tallies.calls.print();
    let Tallies { replays, calls } = tallies;
    replays.at_least(10_000, "replayed");
    replays.at_least(1000, "replayed, with a full slot");
    replays.refusals_at_least(100, &[1, 2, 3, 4, 5, 6, 7, 20, 254, 255]);
    for kind in KINDS {
        calls.at_least(5000, kind);
    }
    calls.at_least(1000, "force that conflicts");
    calls.at_least(1000, "place that conflicts in a later cycle");
    calls.at_least(2000, "force that displaces");
    calls.at_least(500, "force that displaces several");
    calls.at_least(100, "force that displaces one above 31");
    calls.refusals_at_least(1000, &[12, 13, 14, 15, 16, 17, 18, 19]);
}
