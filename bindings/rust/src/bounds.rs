//! The two lower bounds of the interval.

use crate::sys;
use crate::Refusal;

/// The two lower bounds of the interval of a loop.
#[derive(Clone, Copy, Debug, PartialEq, Eq, Hash)]
pub struct Bounds {
    /// For how many cycles one iteration holds the busiest slot; 1 where no slot is used.
    pub resource: usize,
    /// The smallest interval of 1 or more at which some starts meet all dependences, whatever the slots.
    pub recurrence: usize,
}

impl Bounds {
    /// The larger of the two, at which the search begins.
    ///
    /// ```
    /// assert_eq!(mwelitunga::Bounds { resource: 2, recurrence: 3 }.larger(), 3);
    /// ```
    pub fn larger(self) -> usize {
        self.resource.max(self.recurrence)
    }
}

/// The two lower bounds of the interval of a loop file.
///
/// ```
/// use mwelitunga::{bounds, Bounds};
///
/// let file = std::fs::read("../../examples/a.loop")?;
/// assert_eq!(bounds(&file)?, Bounds { resource: 2, recurrence: 3 });
/// # Ok::<(), Box<dyn std::error::Error>>(())
/// ```
///
/// # Errors
///
/// Refusals 1 to 6: the file is no loop file. 8: no interval is long enough for the dependences.
pub fn bounds(file: &[u8]) -> Result<Bounds, Refusal> {
    let mut answer = [0; 8];
    // SAFETY: the slice is valid for its own length, and nothing else points to the answer.
    let result = unsafe { sys::mw_bounds(file.as_ptr(), file.len(), &mut answer) };
    Refusal::check(result, &answer)?;
    Ok(Bounds {
        resource: answer[1] as usize,
        recurrence: answer[2] as usize,
    })
}
