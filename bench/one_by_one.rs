// The search as its definition reads, in plain Rust: every start below the horizon is a probe, paid for by itself, the table is
// asked about each start alone, and every dependence is looked at for every operation that is chosen. The reader, the bounds,
// the table and the windows are those of bindings/plain. The request has to be in range.

use crate::plain::bounds::of_loop as bounds_of;
use crate::plain::file::{read, Loop, OPERATIONS_MOST};
use crate::plain::places::stages;
use crate::plain::search::{Found, NotFound, Request};
use crate::plain::{Refusal, LONGEST};
use std::ops::Range;

// What a search answers, with the starts written to the lent list; the lent rows are clear after it.
pub fn search(
    file: &[u8],
    asked: Request,
    starts: &mut [u16],
    rows: &mut [u64],
) -> Result<Found, NotFound> {
    of_loop(&read(file)?, asked, starts, rows)
}

pub fn of_loop(
    code: &Loop,
    asked: Request,
    starts: &mut [u16],
    rows: &mut [u64],
) -> Result<Found, NotFound> {
    let operations = code.operations.len();
    let bounds = bounds_of(code)?;
    rows[..LONGEST].fill(0);
    let mut left = asked.budget;
    for interval in bounds.larger()..=asked.cap {
        let mut attempt = Attempt {
            code,
            horizon: asked.horizon,
            starts: [0; OPERATIONS_MOST],
            rows: &mut rows[..interval],
        };
        match attempt.choose(0, left) {
            Tried::Nothing(rest) => left = rest,
            Tried::Spent => return ended(11, interval, asked.budget),
            Tried::Found(rest) => {
                let found = &attempt.starts[..operations];
                starts[..operations].copy_from_slice(found);
                return Ok(Found {
                    interval,
                    bounds,
                    stages: stages(code, interval, found),
                    probes: asked.budget - rest,
                });
            }
        }
    }
    ended(10, asked.cap, asked.budget - left)
}

fn ended(number: usize, detail: usize, probes: usize) -> Result<Found, NotFound> {
    Err(NotFound {
        refusal: Refusal { number, detail },
        probes: Some(probes),
    })
}

// What came of trying starts, with what is left of the budget.
enum Tried {
    Found(usize),
    Nothing(usize),
    Spent,
}

struct Attempt<'a> {
    code: &'a Loop,
    horizon: usize,
    starts: [u16; OPERATIONS_MOST],
    rows: &'a mut [u64],
}

impl Attempt<'_> {
    fn choose(&mut self, op: usize, mut left: usize) -> Tried {
        if op == self.code.operations.len() {
            return Tried::Found(left);
        }
        let window = self.window(op);
        for start in 0..self.horizon {
            if left == 0 {
                return Tried::Spent;
            }
            left -= 1;
            if window.contains(&start) {
                match self.try_start(op, start, left) {
                    Tried::Nothing(rest) => left = rest,
                    ended => return ended,
                }
            }
        }
        Tried::Nothing(left)
    }

    fn try_start(&mut self, op: usize, start: usize, left: usize) -> Tried {
        let operation = &self.code.operations[op];
        if !operation.fits(start, self.rows) {
            return Tried::Nothing(left);
        }
        self.starts[op] = start as u16;
        operation.reserve(start, self.rows);
        let tried = self.choose(op + 1, left);
        operation.release(start, self.rows);
        tried
    }

    fn window(&self, op: usize) -> Range<usize> {
        let (mut first, mut end) = (0, self.horizon as i32);
        for d in &self.code.dependences {
            let wait = d.wait(self.rows.len());
            if d.from == op {
                if d.to < op {
                    end = end.min(i32::from(self.starts[d.to]) - wait + 1);
                } else if d.to == op && wait > 0 {
                    end = 0;
                }
            } else if d.to == op && d.from < op {
                first = first.max(i32::from(self.starts[d.from]) + wait);
            }
        }
        first as usize..end.max(0) as usize
    }
}
