//! The verdict on a list of starts.

use super::file::{read, Loop};
use super::legality::Place;
use super::{check, check_range, refused, Refusal, LONGEST};

#[derive(Clone, Copy, Debug, PartialEq)]
pub enum Verdict {
    Legal,
    /// The first dependence that does not hold.
    Broken {
        dependence: usize,
    },
    /// The first two operations that conflict, twice the same where it conflicts with itself; and the first place in which
    /// the second meets the first.
    Conflict {
        first: usize,
        second: usize,
        place: Place,
    },
}

/// The verdict on a list of starts for a file, or the first refusal. What is past the operations is not looked at.
pub fn verify(file: &[u8], interval: usize, starts: &[u16]) -> Result<Verdict, Refusal> {
    let code = read(file)?;
    check_range(interval, LONGEST, 1)?;
    let operations = code.operations.len();
    check(starts.len() >= operations, 20, starts.len())?;
    let starts = &starts[..operations];
    if let Some(op) = starts.iter().position(|&s| usize::from(s) >= LONGEST) {
        return refused(15, op);
    }
    Ok(judge(&code, interval, starts))
}

/// The verdict on a list of starts, one for each operation of a loop: dependences come first, in number order, then pairs
/// of operations in dictionary order.
pub fn judge(code: &Loop, interval: usize, starts: &[u16]) -> Verdict {
    let mut dependences = code.dependences.iter();
    let broken = dependences.position(|d| !d.holds(starts[d.from], starts[d.to], interval));
    if let Some(dependence) = broken {
        return Verdict::Broken { dependence };
    }
    let ops = &code.operations;
    for first in 0..ops.len() {
        for second in first..ops.len() {
            let place = if first == second {
                ops[first].own_place(interval)
            } else {
                ops[second].shared_place(starts[second], &ops[first], starts[first], interval)
            };
            if let Some(place) = place {
                return Verdict::Conflict {
                    first,
                    second,
                    place,
                };
            }
        }
    }
    Verdict::Legal
}
