//! Where in the schedule a start is: stage, cycle and order.

use std::fmt;

use crate::sys;

/// The stage of a start: how many whole intervals are over before it. 0 where the interval is 0.
///
/// ```
/// assert_eq!(mwelitunga::stage(3, 5), 1);
/// ```
pub fn stage(interval: usize, start: usize) -> usize {
    // SAFETY: only numbers are passed, and every number may be.
    unsafe { sys::mw_stage(interval, start) }
}

/// The cycle of a start: what is left over of those whole intervals. The start itself where the interval is 0.
///
/// ```
/// assert_eq!(mwelitunga::cycle(3, 5), 2);
/// ```
pub fn cycle(interval: usize, start: usize) -> usize {
    // SAFETY: only numbers are passed, and every number may be.
    unsafe { sys::mw_cycle(interval, start) }
}

/// The order of operation `op` in its stage: how many operations of the same stage have a smaller cycle, or the same
/// cycle and a smaller number.
///
/// All of the list counts, so pass the starts of the operations, and not the room that they are in. An operation past
/// the list's end is taken to start at 0.
///
/// ```
/// let starts = [0, 2, 5];
/// assert_eq!(mwelitunga::order(3, &starts, 1), 1); // after operation 0, in stage 0
/// assert_eq!(mwelitunga::order(3, &starts, 2), 0); // the first of stage 1
/// ```
pub fn order(interval: usize, starts: &[u16], op: usize) -> usize {
    // SAFETY: the slice is valid for its own length, and every number may be passed.
    unsafe { sys::mw_order(interval, starts.as_ptr(), starts.len(), op) }
}

/// Writes a line for each operation, each after the end of the line before it.
pub(crate) fn list_operations(
    f: &mut fmt::Formatter<'_>,
    interval: usize,
    starts: &[u16],
) -> fmt::Result {
    for (op, &start) in starts.iter().enumerate() {
        write!(
            f,
            "\nop {op} start {start} stage {} cycle {} order {}",
            stage(interval, start.into()),
            cycle(interval, start.into()),
            order(interval, starts, op)
        )?;
    }
    Ok(())
}
