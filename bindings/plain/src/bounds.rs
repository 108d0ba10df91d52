//! The two lower bounds of the interval.

use super::file::{read, Dependence, Loop};
use super::{refused, Refusal, LONGEST};

#[derive(Clone, Copy, Debug, PartialEq)]
pub struct Bounds {
    pub resource: usize,
    pub recurrence: usize,
}

impl Bounds {
    /// The larger one, at which the search begins.
    pub fn larger(&self) -> usize {
        self.resource.max(self.recurrence)
    }
}

/// The bounds of a file, or the first refusal.
pub fn bounds(file: &[u8]) -> Result<Bounds, Refusal> {
    of_loop(&read(file)?)
}

/// The bounds of a loop; refusals 8 and 9.
pub fn of_loop(code: &Loop) -> Result<Bounds, Refusal> {
    if earliest(code, LONGEST).is_none() {
        return refused(if has_circle(code) { 8 } else { 9 }, 0);
    }
    Ok(Bounds {
        resource: resource(code),
        recurrence: recurrence(code),
    })
}

/// The largest total of durations on one slot, and 1 where there are no uses.
fn resource(code: &Loop) -> usize {
    let mut totals = [0; 25];
    for u in code.operations.iter().flat_map(|op| &op.uses) {
        totals[usize::from(u.slot)] += usize::from(u.duration);
    }
    totals.into_iter().max().unwrap_or(0).max(1)
}

/// The smallest interval at which some starts meet all dependences, where the longest interval has such starts. They
/// meet them at every longer interval too, so it is found by halving.
fn recurrence(code: &Loop) -> usize {
    let (mut least, mut most) = (1, LONGEST);
    while least < most {
        let middle = (least + most) / 2;
        if earliest(code, middle).is_some() {
            most = middle;
        } else {
            least = middle + 1;
        }
    }
    least
}

/// The earliest starts from 0 on that meet all dependences at an interval, where there are any.
pub fn earliest(code: &Loop, interval: usize) -> Option<Vec<i32>> {
    pushed(code.operations.len(), &code.dependences, interval)
}

/// Whether a cycle of dependences of distance 0 has a delay above 0: no starts meet them at any interval.
fn has_circle(code: &Loop) -> bool {
    let dependences = code.dependences.iter();
    let within: Vec<Dependence> = dependences.filter(|d| d.distance == 0).copied().collect();
    pushed(code.operations.len(), &within, LONGEST).is_none()
}

/// Starts from 0 on, pushed later until they meet the dependences. Each is then the length of a longest path, which
/// passes no operation twice; so where some start still moves in round n, of n operations, there are no such starts.
fn pushed(operations: usize, dependences: &[Dependence], interval: usize) -> Option<Vec<i32>> {
    let mut starts = vec![0; operations];
    for _ in 0..operations {
        let mut moved = false;
        for d in dependences {
            let least = starts[d.from] + d.wait(interval);
            if starts[d.to] < least {
                starts[d.to] = least;
                moved = true;
            }
        }
        if !moved {
            return Some(starts);
        }
    }
    None
}
