//! The session: a reservation table in which operations are placed, forced, removed and taken back.

use std::fmt;

use crate::sys::{self, FreeRows, NOT_PLACED};
use crate::{read, Refusal, OPERATIONS_MOST, SEARCH_ROWS};

/// One call of a session. Any number may be given: what is out of range is refused.
///
/// Written out, a call names its operation, which a [`Refusal`] of it does not know:
///
/// ```
/// use mwelitunga::{Call, Refusal};
///
/// let call = Call::Place { op: 2, start: 3 };
/// let refusal = Refusal { number: 17, detail: 35 };
/// assert_eq!(
///     format!("{call}: {refusal}"),
///     "place operation 2 at 3: the operation conflicts with itself or with a placed one, in its cycle 1, slot 3 (refused 17 at 35)"
/// );
/// ```
#[derive(Clone, Copy, Debug, PartialEq, Eq, Hash)]
pub enum Call {
    /// Places an operation where it breaks no dependence and conflicts with nothing.
    ///
    /// Refusals, in this order: 12, 13, 15, 16, 17. [`Refusal::place`] of the last is the first place in which the operation
    /// meets a placed one, or itself.
    Place {
        /// The operation.
        op: usize,
        /// Its start.
        start: usize,
    },
    /// Places an operation, and removes before that all placed ones which conflict with it or break a dependence with it.
    ///
    /// Refusals, in this order: 12, 13, 15, 16 and 17, of which the last two are about the operation itself only.
    /// [`Refusal::place`] of 17 is the first place in which it meets itself.
    Force {
        /// The operation.
        op: usize,
        /// Its start.
        start: usize,
    },
    /// Removes a placed operation.
    ///
    /// Refusals, in this order: 12, 14.
    Remove {
        /// The operation.
        op: usize,
    },
    /// Opens a checkpoint that remembers which operations are placed, and where. Up to 16 are open at a time.
    ///
    /// Refusal: 18.
    Checkpoint,
    /// Closes the newest checkpoint. What is placed stays as it is.
    ///
    /// Refusal: 19.
    Release,
    /// Goes back to what a checkpoint remembers. It stays open, and newer ones are closed.
    ///
    /// Refusal: 19.
    Rollback {
        /// The checkpoint's number, from 1.
        checkpoint: usize,
    },
}

impl Call {
    /// The three numbers by which the library knows the call: its kind and two arguments.
    fn numbers(self) -> [u64; 3] {
        match self {
            Call::Place { op, start } => [1, op as u64, start as u64],
            Call::Force { op, start } => [2, op as u64, start as u64],
            Call::Remove { op } => [3, op as u64, 0],
            Call::Checkpoint => [4, 0, 0],
            Call::Release => [5, 0, 0],
            Call::Rollback { checkpoint } => [6, checkpoint as u64, 0],
        }
    }

    /// What a value that the library answered means for this call.
    fn reply(self, value: u64) -> Reply {
        match self {
            Call::Force { .. } => Reply::Displaced(value),
            Call::Checkpoint => Reply::Checkpoint(value as usize),
            _ => Reply::Done,
        }
    }
}

impl fmt::Display for Call {
    fn fmt(&self, f: &mut fmt::Formatter<'_>) -> fmt::Result {
        match self {
            Call::Place { op, start } => write!(f, "place operation {op} at {start}"),
            Call::Force { op, start } => write!(f, "force operation {op} to {start}"),
            Call::Remove { op } => write!(f, "remove operation {op}"),
            Call::Checkpoint => write!(f, "open a checkpoint"),
            Call::Release => write!(f, "release the newest checkpoint"),
            Call::Rollback { checkpoint } => write!(f, "roll back to checkpoint {checkpoint}"),
        }
    }
}

/// The answer to a [`Call`] that was not refused.
#[derive(Clone, Copy, Debug, PartialEq, Eq, Hash)]
pub enum Reply {
    /// The call was made: an answer to place, remove, release and rollback.
    Done,
    /// The call was made: the answer to force. Bit `i` is set where operation `i` was removed for it.
    Displaced(u64),
    /// The number of the new checkpoint, from 1.
    Checkpoint(usize),
}

/// What a list of calls has answered and left.
#[derive(Clone, Debug, PartialEq, Eq, Hash)]
pub struct Replay {
    /// The answer to each call, in order. A refused call changes nothing.
    pub replies: Vec<Result<Reply, Refusal>>,
    /// The start of each operation at the end, `None` for one that is not placed.
    pub starts: Vec<Option<u16>>,
    /// How many checkpoints are open at the end.
    pub checkpoints: usize,
    /// The reservation table at the end, one row for each cycle of the interval. Bit `s - 1` is set where a placed
    /// operation takes slot `s` in that cycle.
    pub rows: Vec<u64>,
    /// In how many of these rows each slot is free. Element `s - 1` is the number of slot `s`, 1 to 24: the interval less the
    /// durations for which the placed operations hold it.
    pub free_rows: FreeRows,
}

/// Opens a session on a loop file at an interval, with starts below a horizon, and makes a list of calls one after the
/// other. The interval may be below the loop's bounds.
///
/// ```
/// use mwelitunga::{replay, Call, Place, Refusal, Reply};
///
/// let file = std::fs::read("../../examples/a.loop")?;
/// let calls = [
///     Call::Place { op: 0, start: 0 },
///     Call::Checkpoint,
///     Call::Force { op: 2, start: 3 }, // both take slot 1 in cycle 0
///     Call::Place { op: 0, start: 0 },
/// ];
/// let replay = replay(&file, 3, 256, &calls)?;
/// assert_eq!(replay.replies[1], Ok(Reply::Checkpoint(1)));
/// assert_eq!(replay.replies[2], Ok(Reply::Displaced(0b001)));
/// assert_eq!(replay.replies[3], Err(Refusal { number: 17, detail: 1 }));
/// assert_eq!(replay.replies[3].unwrap_err().place(), Some(Place { cycle: 0, slot: 1 }));
/// assert_eq!(replay.starts, [None, None, Some(3)]);
/// assert_eq!(replay.checkpoints, 1);
/// assert_eq!(replay.rows, [1, 0, 0]);
/// assert_eq!(replay.free_rows[..2], [2, 3]); // slots 1 and 2
/// # Ok::<(), Box<dyn std::error::Error>>(())
/// ```
///
/// # Errors
///
/// Where the session cannot be opened: refusals 1 to 6, the file is no loop file. 7: the interval or the horizon is not
/// 1 to 4,096. The refusal of a call is its reply, and the calls after it are still made.
pub fn replay(
    file: &[u8],
    interval: usize,
    horizon: usize,
    calls: &[Call],
) -> Result<Replay, Refusal> {
    let numbers: Vec<u64> = calls.iter().flat_map(|call| call.numbers()).collect();
    let mut replies = vec![0; 2 * calls.len()];
    // As many rows as the interval asks for. One that is out of range is refused, and needs none.
    let mut rows = vec![0; interval.min(SEARCH_ROWS)];
    let mut starts = [NOT_PLACED; OPERATIONS_MOST];
    let mut free_rows = [0; 24];
    let checkpoints = made(
        file,
        [interval, horizon],
        &numbers,
        &mut rows,
        &mut replies,
        &mut starts,
        &mut free_rows,
    )?;
    Ok(Replay {
        replies: decoded(calls, &replies),
        starts: placed(file, &starts),
        checkpoints,
        rows,
        free_rows,
    })
}

/// Has the library make the calls. The answer is how many checkpoints are open at the end.
fn made(
    file: &[u8],
    [interval, horizon]: [usize; 2],
    calls: &[u64],
    rows: &mut [u64],
    replies: &mut [u64],
    starts: &mut [u16; OPERATIONS_MOST],
    free_rows: &mut FreeRows,
) -> Result<usize, Refusal> {
    let mut answer = [0; 8];
    // SAFETY: the slices are valid for their own lengths and the arrays for their 64 starts and 24 numbers; what is written
    // is borrowed mutably, so it overlaps nothing, and nothing else points to the answer.
    let result = unsafe {
        sys::mw_session(
            file.as_ptr(),
            file.len(),
            interval,
            horizon,
            calls.as_ptr(),
            calls.len(),
            rows.as_mut_ptr(),
            rows.len(),
            replies.as_mut_ptr(),
            replies.len(),
            starts,
            free_rows,
            &mut answer,
        )
    };
    Refusal::check(result, &answer)?;
    Ok(answer[2] as usize)
}

/// The reply to each call, from the two numbers that it has.
fn decoded(calls: &[Call], replies: &[u64]) -> Vec<Result<Reply, Refusal>> {
    let pairs = replies.chunks_exact(2);
    calls
        .iter()
        .zip(pairs)
        .map(|(call, pair)| match pair[0] {
            0 => Ok(call.reply(pair[1])),
            number => Err(Refusal {
                number: number as usize,
                detail: pair[1],
            }),
        })
        .collect()
}

/// The start of each operation of an accepted file.
fn placed(file: &[u8], starts: &[u16; OPERATIONS_MOST]) -> Vec<Option<u16>> {
    let counts = read(file).expect("a file that a session was opened on is a loop file");
    starts[..counts.operations]
        .iter()
        .map(|&start| (start != NOT_PLACED).then_some(start))
        .collect()
}
