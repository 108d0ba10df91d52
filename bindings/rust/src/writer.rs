//! The writer of loop files, and what it refuses a loop for.

use std::error::Error;
use std::fmt;

use crate::sys;
use crate::{Dependence, Kind, Loop, Refusal, Use};

/// Writes the file of a loop to the beginning of lent memory, from three flat lists of numbers, and gives the number of its
/// bytes. [`FILE_MOST`](crate::FILE_MOST) bytes are enough for every loop. [`Loop::to_file`] lends the memory itself and
/// takes a loop.
///
/// | List | Numbers of a record | Records |
/// |---|---|---|
/// | `ops` | latency 0 to 64; number of uses 0 to 4 | 1 to 64 operations |
/// | `uses` | slot 1 to 24, above that of the same operation's use before; duration 1 to 16 | as many as the operations say, in their order |
/// | `deps` | from, to: operation numbers from 0; delay -64 to 64; distance 0 to 15 | 0 to 256 dependences |
///
/// Where the file is written, what is behind it in the buffer is as it was; after a refusal all of the buffer is as it was.
///
/// ```
/// use mwelitunga::{write, Refusal};
///
/// let ops = [2, 1, 3, 1, 1, 1];
/// let uses = [1, 1, 2, 2, 1, 1];
/// let deps = [0, 1, 2, 0, 1, 2, 3, 0, 1, 1, 3, 1];
/// let mut buffer = [7; 52];
/// let length = write(&ops, &uses, &deps, &mut buffer).expect("loop A is in range");
/// assert_eq!(buffer[..length], std::fs::read("../../examples/a.loop")?);
/// assert_eq!(buffer[length..], [7, 7]);
///
/// // Two uses, where the operations have three.
/// let error = write(&ops, &uses[..4], &deps, &mut buffer).unwrap_err();
/// assert_eq!(error.refusal, Refusal { number: 5, detail: 2 });
/// # Ok::<(), std::io::Error>(())
/// ```
///
/// # Errors
///
/// In this order:
///
/// | Refusal | Given where | Detail |
/// |---|---|---|
/// | 3 | `ops` is no whole number of records, or of none, or of more than 64 | 2 |
/// | 3 | `deps` is no whole number of records, or of more than 256 | 18 |
/// | 4 | a latency or a number of uses is out of range | the operation's number |
/// | 5 | `uses` does not have as many numbers as the operations ask for | the number of whole uses in it |
/// | 5 | a slot or a duration is out of range, or a slot is not above the one before | the use's number in `uses` |
/// | 6 | from, to, delay or distance is out of range | the dependence's number |
/// | 20 | the buffer is shorter than the file | its length |
///
/// Numbers count from 0.
pub fn write(
    ops: &[i32],
    uses: &[i32],
    deps: &[i32],
    buffer: &mut [u8],
) -> Result<usize, ListError> {
    let mut answer = [0; 8];
    // SAFETY: the slices are valid for their own lengths; the buffer is borrowed mutably, so it overlaps nothing, and
    // nothing else points to the answer.
    let result = unsafe {
        sys::mw_write(
            ops.as_ptr(),
            ops.len(),
            uses.as_ptr(),
            uses.len(),
            deps.as_ptr(),
            deps.len(),
            buffer.as_mut_ptr(),
            buffer.len(),
            &mut answer,
        )
    };
    match Refusal::check(result, &answer) {
        Ok(()) => Ok(answer[1] as usize),
        Err(refusal) => Err(ListError { refusal }),
    }
}

/// Why lists of numbers have no file, or none in the buffer.
///
/// ```
/// use mwelitunga::write;
///
/// let error = write(&[1, 0, 65, 0], &[], &[], &mut [0; 64]).unwrap_err();
/// assert_eq!(
///     error.to_string(),
///     "operation 1: the latency is not 0 to 64, or the number of uses is not 0 to 4 (refused 4 at 1)"
/// );
/// ```
#[derive(Clone, Copy, Debug, PartialEq, Eq, Hash)]
pub struct ListError {
    /// The refusal of the writer; [`write()`] says what its detail is.
    pub refusal: Refusal,
}

impl fmt::Display for ListError {
    /// One line: the message, then number and detail in brackets.
    fn fmt(&self, f: &mut fmt::Formatter<'_>) -> fmt::Result {
        let Refusal { number, detail } = self.refusal;
        match (self.refusal.kind(), detail) {
            (Some(Kind::Section), 2) => {
                write!(f, "the list of operations is not of 1 to 64 whole operations")
            }
            (Some(Kind::Section), _) => {
                write!(f, "the list of dependences is not of 0 to 256 whole dependences")
            }
            (Some(Kind::Operation), op) => write!(
                f,
                "operation {op}: the latency is not 0 to 64, or the number of uses is not 0 to 4"
            ),
            (Some(Kind::Use), given) => write!(
                f,
                "use {given} of all is out of range or out of order, or {given} is not the number of uses that the operations have"
            ),
            (Some(Kind::Dependence), given) => write!(
                f,
                "dependence {given}: from or to is no operation, the delay is not -64 to 64, or the distance is not 0 to 15"
            ),
            (Some(Kind::Room), length) => {
                write!(f, "the buffer has {length} bytes, and the file has more")
            }
            _ => write!(f, "unknown refusal"),
        }?;
        write!(f, " (refused {number} at {detail})")
    }
}

impl Error for ListError {}

impl From<ListError> for Refusal {
    /// The refusal without the message.
    fn from(error: ListError) -> Refusal {
        error.refusal
    }
}

/// Why a [`Loop`] has no file.
///
/// Written out, it names the record and the value that is out of range, and then number and detail of the refusal:
///
/// ```
/// use mwelitunga::{Dependence, Loop, Operation, Refusal, Use, Wrong};
///
/// let given = Use { slot: 3, duration: 17 };
/// let described = Loop {
///     operations: vec![
///         Operation { latency: 1, uses: vec![Use { slot: 24, duration: 1 }] },
///         Operation { latency: 1, uses: vec![Use { slot: 2, duration: 1 }, given] },
///     ],
///     dependences: vec![Dependence { from: 0, to: 2, delay: 0, distance: 0 }],
/// };
/// let error = described.to_file().unwrap_err();
/// assert_eq!(error.refusal, Refusal { number: 5, detail: 2 });
/// assert_eq!(error.wrong, Wrong::Use { number: 2, op: 1, place: 1, given, before: 2 });
/// assert_eq!(
///     error.to_string(),
///     "operation 1, use 1 (use 2 of all): the duration is 17, not 1 to 16 (refused 5 at 2)"
/// );
/// ```
#[derive(Clone, Copy, Debug, PartialEq, Eq, Hash)]
pub struct WriteError {
    /// The refusal of the writer; [`write()`] says what its detail is.
    pub refusal: Refusal,
    /// What of the loop is wrong.
    pub wrong: Wrong,
}

/// What of a [`Loop`] is wrong: which record, by its number from 0, and the values that are at fault.
#[derive(Clone, Copy, Debug, PartialEq, Eq, Hash)]
#[non_exhaustive]
pub enum Wrong {
    /// The loop does not have 1 to 64 operations.
    Operations {
        /// How many it has.
        number: usize,
    },
    /// The loop has more than 256 dependences.
    Dependences {
        /// How many it has.
        number: usize,
    },
    /// The latency or the number of uses of an operation is out of range.
    Operation {
        /// The operation's number.
        op: usize,
        /// Its latency.
        latency: i32,
        /// Its number of uses.
        uses: usize,
    },
    /// The slot or the duration of a use is out of range, or the slot is not above that of the use before.
    Use {
        /// The use's number in the list of all uses of the loop.
        number: usize,
        /// The operation that it belongs to.
        op: usize,
        /// Its number among the uses of this operation.
        place: usize,
        /// The use.
        given: Use,
        /// The slot of the operation's use before, 0 where there is none.
        before: i32,
    },
    /// An operation number, the delay or the distance of a dependence is out of range.
    Dependence {
        /// The dependence's number.
        number: usize,
        /// The dependence.
        given: Dependence,
        /// How many operations the loop has.
        operations: usize,
    },
}

impl WriteError {
    /// The error of a refusal that the writer gave for a loop.
    pub(crate) fn of(described: &Loop, refusal: Refusal) -> WriteError {
        WriteError {
            refusal,
            wrong: wrong(described, refusal),
        }
    }
}

/// What a refusal of the writer is about. A loop always comes with as many uses as it has, and in a buffer for any file, so
/// a refusal 5 is that of a use, and there is no 20.
fn wrong(described: &Loop, refusal: Refusal) -> Wrong {
    let Loop {
        operations,
        dependences,
    } = described;
    let number = refusal.detail as usize;
    match (refusal.kind(), number) {
        (Some(Kind::Section), 2) => Wrong::Operations {
            number: operations.len(),
        },
        (Some(Kind::Section), 18) => Wrong::Dependences {
            number: dependences.len(),
        },
        (Some(Kind::Operation), op) => Wrong::Operation {
            op,
            latency: operations[op].latency,
            uses: operations[op].uses.len(),
        },
        (Some(Kind::Use), number) => wrong_use(described, number),
        (Some(Kind::Dependence), number) => Wrong::Dependence {
            number,
            given: dependences[number],
            operations: operations.len(),
        },
        _ => unreachable!("mw_write does not refuse a loop by {refusal:?}"),
    }
}

/// What is wrong where it is a use, by its number in the list of all.
fn wrong_use(described: &Loop, number: usize) -> Wrong {
    let (op, place) = described
        .use_of_all(number)
        .expect("mw_write refuses a use that there is");
    let uses = &described.operations[op].uses;
    Wrong::Use {
        number,
        op,
        place,
        given: uses[place],
        before: place.checked_sub(1).map_or(0, |before| uses[before].slot),
    }
}

impl fmt::Display for Wrong {
    /// The record, and the first of its values that is out of range: where the others are not, it is the last one.
    fn fmt(&self, f: &mut fmt::Formatter<'_>) -> fmt::Result {
        match *self {
            Wrong::Operations { number } => {
                write!(f, "the loop has {number} operations, not 1 to 64")
            }
            Wrong::Dependences { number } => {
                write!(f, "the loop has {number} dependences, not 0 to 256")
            }
            Wrong::Operation { op, latency, uses } => {
                write!(f, "operation {op}: ")?;
                if !(0..=64).contains(&latency) {
                    write!(f, "the latency is {latency}, not 0 to 64")
                } else {
                    write!(f, "the number of uses is {uses}, not 0 to 4")
                }
            }
            Wrong::Use {
                number,
                op,
                place,
                given: Use { slot, duration },
                before,
            } => {
                write!(f, "operation {op}, use {place} (use {number} of all): ")?;
                if !(1..=24).contains(&slot) {
                    write!(f, "the slot is {slot}, not 1 to 24")
                } else if slot <= before {
                    write!(
                        f,
                        "the slot is {slot}, not above {before}, that of the use before"
                    )
                } else {
                    write!(f, "the duration is {duration}, not 1 to 16")
                }
            }
            Wrong::Dependence {
                number,
                given,
                operations,
            } => {
                let Dependence {
                    from,
                    to,
                    delay,
                    distance,
                } = given;
                write!(f, "dependence {number}: ")?;
                if from >= operations {
                    write!(
                        f,
                        "from is {from}, not below {operations}, the number of operations"
                    )
                } else if to >= operations {
                    write!(
                        f,
                        "to is {to}, not below {operations}, the number of operations"
                    )
                } else if !(-64..=64).contains(&delay) {
                    write!(f, "the delay is {delay}, not -64 to 64")
                } else {
                    write!(f, "the distance is {distance}, not 0 to 15")
                }
            }
        }
    }
}

impl fmt::Display for WriteError {
    /// One line: the message, then number and detail in brackets.
    fn fmt(&self, f: &mut fmt::Formatter<'_>) -> fmt::Result {
        let Refusal { number, detail } = self.refusal;
        write!(f, "{} (refused {number} at {detail})", self.wrong)
    }
}

impl Error for WriteError {}

impl From<WriteError> for Refusal {
    /// The refusal without the record.
    fn from(error: WriteError) -> Refusal {
        error.refusal
    }
}
