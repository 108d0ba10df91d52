//! The verdict on a proposed list of starts.

use std::fmt;

use crate::sys;
use crate::{Place, Refusal};

/// The verdict on a proposed list of starts.
#[derive(Clone, Copy, Debug, PartialEq, Eq, Hash)]
pub enum Verdict {
    /// All dependences hold, and no slot is taken twice in one cycle.
    Legal,
    /// A dependence does not hold.
    Broken {
        /// The number of the first such dependence.
        dependence: usize,
    },
    /// All dependences hold, and two operations take one slot in one cycle, counted modulo the interval. The first such
    /// pair is named.
    Conflict {
        /// The smaller of the two operations.
        first: usize,
        /// The larger one; the same where an operation holds a slot for longer than the interval.
        second: usize,
        /// Where the second meets the first: the first cycle of the second, and in it the lowest slot, that the first
        /// one covers too. Where they are the same, one that it covers in an earlier cycle too.
        place: Place,
    },
}

impl fmt::Display for Verdict {
    fn fmt(&self, f: &mut fmt::Formatter<'_>) -> fmt::Result {
        match self {
            Verdict::Legal => write!(f, "legal"),
            Verdict::Broken { dependence } => write!(f, "dependence {dependence} is broken"),
            Verdict::Conflict {
                first,
                second,
                place,
            } if first == second => {
                write!(f, "operation {first} conflicts with itself, in its {place}")
            }
            Verdict::Conflict {
                first,
                second,
                place: Place { cycle, slot },
            } => write!(
                f,
                "operations {first} and {second} conflict, in cycle {cycle} of operation {second}, slot {slot}"
            ),
        }
    }
}

/// The verdict on proposed starts at an interval: `starts[i]` is that of operation `i`. A longer list is fine; what is
/// past the operations is not looked at.
///
/// ```
/// use mwelitunga::{verify, Place, Verdict};
///
/// let file = std::fs::read("../../examples/a.loop")?;
/// assert_eq!(verify(&file, 3, &[0, 2, 5])?, Verdict::Legal);
/// assert_eq!(verify(&file, 3, &[0, 2, 4])?, Verdict::Broken { dependence: 1 });
///
/// let verdict = verify(&file, 3, &[0, 2, 6])?;
/// let place = Place { cycle: 0, slot: 1 };
/// assert_eq!(verdict, Verdict::Conflict { first: 0, second: 2, place });
/// assert_eq!(verdict.to_string(), "operations 0 and 2 conflict, in cycle 0 of operation 2, slot 1");
/// # Ok::<(), Box<dyn std::error::Error>>(())
/// ```
///
/// # Errors
///
/// In this order, refusals 1 to 6: the file is no loop file. 7: the interval is not 1 to 4,096. 20: the list is shorter
/// than the operations. 15: a start is not below 4,096.
pub fn verify(file: &[u8], interval: usize, starts: &[u16]) -> Result<Verdict, Refusal> {
    let mut answer = [0; 8];
    // SAFETY: the slices are valid for their own lengths, and nothing else points to the answer.
    let result = unsafe {
        sys::mw_verify(
            file.as_ptr(),
            file.len(),
            interval,
            starts.as_ptr(),
            starts.len(),
            &mut answer,
        )
    };
    Refusal::check(result, &answer)?;
    let (a, b) = (answer[2] as usize, answer[3] as usize);
    Ok(match answer[1] {
        0 => Verdict::Legal,
        1 => Verdict::Broken { dependence: a },
        2 => Verdict::Conflict {
            first: a,
            second: b,
            place: Place::of(answer[4]),
        },
        other => unreachable!("mw_verify has no verdict {other}"),
    })
}
