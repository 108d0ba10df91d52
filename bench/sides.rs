// The sides of a call in plain Rust, of a search also one that pays for starts one by one; the library's own are in bench/proved.rs.
// All leave what they give back and write in a Memory, so that the sides can be compared whole.

use crate::one_by_one;
use crate::plain::bounds::bounds;
use crate::plain::replay::replay;
use crate::plain::search::{search, Found, NotFound, Request};
use crate::plain::file::Loop;
use crate::plain::writer::write_lists;
use crate::plain::Refusal;
use crate::proved::{Lists, Memory, BUDGET, CAP, SESSION_HORIZON};

impl Memory {
    // A result of 0, and an answer that has these words after the first.
    fn accept(&mut self, words: &[usize]) {
        self.result = 0;
        self.answer = [0; 8];
        for (to, &word) in self.answer[1..].iter_mut().zip(words) {
            *to = word as u64;
        }
    }

    // The number and the detail of a refusal.
    fn refuse(&mut self, refusal: Refusal) {
        self.accept(&[]);
        self.result = refusal.number;
        self.answer[0] = refusal.detail as u64;
    }

    // What a search in Rust came to.
    fn tell(&mut self, found: Result<Found, NotFound>) {
        match found {
            Ok(f) => self.accept(&[
                f.interval,
                f.bounds.resource,
                f.bounds.recurrence,
                f.stages,
                f.probes,
            ]),
            Err(none) => {
                self.refuse(none.refusal);
                self.answer[5] = none.probes.unwrap_or(0) as u64;
            }
        }
    }
}

// What every search is asked for.
fn asked(horizon: usize) -> Request {
    Request {
        cap: CAP,
        horizon,
        budget: BUDGET,
    }
}

impl Lists {
    pub fn of(code: &Loop) -> Lists {
        let uses = code.operations.iter().flat_map(|op| &op.uses);
        Lists {
            ops: code
                .operations
                .iter()
                .flat_map(|op| [op.latency.into(), op.uses.len() as i32])
                .collect(),
            uses: uses.flat_map(|u| [u.slot.into(), u.duration.into()]).collect(),
            deps: code
                .dependences
                .iter()
                .flat_map(|d| [d.from as i32, d.to as i32, d.delay, d.distance])
                .collect(),
        }
    }
}

pub fn rust_write(lists: &Lists, m: &mut Memory) {
    match write_lists(&lists.ops, &lists.uses, &lists.deps, &mut m.buffer) {
        Ok(length) => m.accept(&[length]),
        Err(refusal) => m.refuse(refusal),
    }
}

pub fn rust_bounds(file: &[u8], m: &mut Memory) {
    match bounds(file) {
        Ok(b) => m.accept(&[b.resource, b.recurrence]),
        Err(refusal) => m.refuse(refusal),
    }
}

pub fn one_by_one_search(file: &[u8], horizon: usize, m: &mut Memory) {
    let found = one_by_one::search(file, asked(horizon), &mut m.starts, &mut m.rows);
    m.tell(found);
}

pub fn rust_search(file: &[u8], horizon: usize, m: &mut Memory) {
    let found = search(file, asked(horizon), &mut m.starts, &mut m.rows);
    m.tell(found);
}

pub fn rust_session(file: &[u8], interval: usize, calls: &[u64], m: &mut Memory) {
    let ended = replay(
        file,
        [interval, SESSION_HORIZON],
        calls,
        &mut m.rows,
        &mut m.replies,
        &mut m.starts,
        &mut m.free_rows,
    );
    match ended {
        Ok(r) => m.accept(&[r.calls, r.checkpoints]),
        Err(refusal) => m.refuse(refusal),
    }
}
