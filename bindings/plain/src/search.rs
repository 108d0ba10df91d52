//! The search: the smallest interval that has a legal list of starts, the first such list, and the probes it takes.

use super::bounds::{self, Bounds};
use super::file::{read, Dependence, Loop, OPERATIONS_MOST};
use super::places::stages;
use super::{check, check_range, Refusal, LONGEST};
use std::ops::Range;

/// The largest budget.
const BUDGET_MOST: usize = 1_000_000;

/// What is asked of a search: the largest interval, the horizon that starts stay below, and the most probes.
#[derive(Clone, Copy, Debug, PartialEq)]
pub struct Request {
    pub cap: usize,
    pub horizon: usize,
    pub budget: usize,
}

/// What a search found, beside the starts.
#[derive(Clone, Copy, Debug, PartialEq)]
pub struct Found {
    pub interval: usize,
    pub bounds: Bounds,
    pub stages: usize,
    pub probes: usize,
}

/// Why a search found nothing; refusals 10 and 11 carry the probes made.
#[derive(Clone, Copy, Debug, PartialEq)]
pub struct NotFound {
    pub refusal: Refusal,
    pub probes: Option<usize>,
}

impl From<Refusal> for NotFound {
    fn from(refusal: Refusal) -> NotFound {
        NotFound {
            refusal,
            probes: None,
        }
    }
}

/// Searches for the schedule of a file, or tells the first refusal. Where there is a schedule, its starts are written to the
/// lent list. The lent rows are the table of the search, and are clear after it.
pub fn search(
    file: &[u8],
    request: Request,
    starts: &mut [u16],
    rows: &mut [u64],
) -> Result<Found, NotFound> {
    of_loop(&read(file)?, request, starts, rows)
}

/// The search for the schedule of a loop; refusals 7, 20, 8, 9, 10 and 11.
pub fn of_loop(
    code: &Loop,
    request: Request,
    starts: &mut [u16],
    rows: &mut [u64],
) -> Result<Found, NotFound> {
    let operations = code.operations.len();
    check_range(request.cap, LONGEST, 1)?;
    check_range(request.horizon, LONGEST, 2)?;
    check_range(request.budget, BUDGET_MOST, 3)?;
    check(starts.len() >= operations, 20, starts.len())?;
    check(rows.len() >= LONGEST, 20, rows.len())?;
    let bounds = bounds::of_loop(code)?;
    rows[..LONGEST].fill(0);
    let by_later = by_later(code);
    let mut left = request.budget;
    for interval in bounds.larger()..=request.cap {
        let mut attempt = Attempt {
            code,
            by_later: &by_later,
            horizon: request.horizon,
            starts: [0; OPERATIONS_MOST],
            rows: &mut rows[..interval],
        };
        match attempt.choose(0, left) {
            Tried::Nothing(rest) => left = rest,
            Tried::Spent => return ended(11, interval, request.budget),
            Tried::Found(rest) => {
                let found = &attempt.starts[..operations];
                starts[..operations].copy_from_slice(found);
                return Ok(Found {
                    interval,
                    bounds,
                    stages: stages(code, interval, found),
                    probes: request.budget - rest,
                });
            }
        }
    }
    ended(10, request.cap, request.budget - left)
}

/// For each operation the dependences with itself and with those before it.
fn by_later(code: &Loop) -> Vec<Vec<Dependence>> {
    let mut lists = vec![Vec::new(); code.operations.len()];
    for d in &code.dependences {
        lists[d.from.max(d.to)].push(*d);
    }
    lists
}

/// Refusals 10 and 11, with the probes made.
fn ended(number: usize, detail: usize, probes: usize) -> Result<Found, NotFound> {
    Err(NotFound {
        refusal: Refusal { number, detail },
        probes: Some(probes),
    })
}

/// What came of trying starts. The number is what is left of the budget.
enum Tried {
    /// A legal list, with all operations placed.
    Found(usize),
    /// No start leads to such a list.
    Nothing(usize),
    /// There was no probe left.
    Spent,
}

/// The search at one interval. Operations are placed in number order, so the starts of those before the next one are
/// known, and they alone are in the table.
struct Attempt<'a> {
    code: &'a Loop,
    by_later: &'a [Vec<Dependence>],
    horizon: usize,
    starts: [u16; OPERATIONS_MOST],
    /// One row for each cycle of the interval.
    rows: &'a mut [u64],
}

impl Attempt<'_> {
    /// Chooses the next operation, and tries its starts in the window at which it fits. Each start below the horizon is a
    /// probe; those that a dependence or the table excludes are paid for at once, up to the next start that is tried or
    /// the horizon.
    fn choose(&mut self, op: usize, mut left: usize) -> Tried {
        let Some(operation) = self.code.operations.get(op) else {
            return Tried::Found(left);
        };
        let mut window = self.window(op);
        let mut paid = 0;
        while let Some(start) = operation.next_free(window.clone(), self.rows) {
            let Some(rest) = left.checked_sub(start + 1 - paid) else {
                return Tried::Spent;
            };
            match self.place(op, start, rest) {
                Tried::Nothing(rest) => left = rest,
                ended => return ended,
            }
            paid = start + 1;
            window.start = paid;
        }
        match left.checked_sub(self.horizon - paid) {
            Some(rest) => Tried::Nothing(rest),
            None => Tried::Spent,
        }
    }

    /// Places an operation at a start at which it fits, and goes on to the operations after it.
    fn place(&mut self, op: usize, start: usize, left: usize) -> Tried {
        let operation = &self.code.operations[op];
        self.starts[op] = start as u16;
        operation.reserve(start, self.rows);
        let tried = self.choose(op + 1, left);
        operation.release(start, self.rows);
        tried
    }

    /// The starts of an operation at which its dependences with itself and with those before it hold.
    fn window(&self, op: usize) -> Range<usize> {
        let (mut first, mut end) = (0, self.horizon as i32);
        for d in &self.by_later[op] {
            let wait = d.wait(self.rows.len());
            if d.from == d.to {
                if wait > 0 {
                    end = 0;
                }
            } else if d.from == op {
                end = end.min(i32::from(self.starts[d.to]) - wait + 1);
            } else {
                first = first.max(i32::from(self.starts[d.from]) + wait);
            }
        }
        first as usize..end.max(0) as usize
    }
}
