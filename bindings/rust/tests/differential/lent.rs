//! The C functions on memory with guards around it, so that every write outside of what is lent is seen.

use crate::random::lists::Lists;
use crate::random::Random;
use mwelitunga::sys::{self, Answer};

/// How many elements stand before and after what is lent.
const GUARD: usize = 16;

/// Lent memory: random elements at first, guards included.
#[derive(Clone, Debug, PartialEq)]
pub struct Lent<T> {
    memory: Vec<T>,
}

/// A type of lent elements.
pub trait Element: Copy + PartialEq + std::fmt::Debug {
    /// An element cut from a number.
    fn cut(number: u64) -> Self;
}

impl Element for u8 {
    fn cut(number: u64) -> u8 {
        number as u8
    }
}

impl Element for u16 {
    fn cut(number: u64) -> u16 {
        number as u16
    }
}

impl Element for u64 {
    fn cut(number: u64) -> u64 {
        number
    }
}

impl<T: Element> Lent<T> {
    /// Memory of a length, whatever was in it.
    pub fn new(random: &mut Random, length: usize) -> Lent<T> {
        let memory = (0..length + 2 * GUARD).map(|_| T::cut(random.any()));
        Lent {
            memory: memory.collect(),
        }
    }

    /// The part that is lent.
    pub fn part(&mut self) -> &mut [T] {
        let end = self.memory.len() - GUARD;
        &mut self.memory[GUARD..end]
    }

    /// Overwrites the beginning of the part that is lent: what a call is expected to do.
    pub fn write(&mut self, values: &[T]) {
        self.part()[..values.len()].copy_from_slice(values);
    }
}

/// A result and an answer.
pub type Told = (usize, Answer);

/// Makes a call with room for the answer. All eight numbers are expected to be written, and nothing beside them.
fn told(random: &mut Random, call: impl FnOnce(*mut Answer) -> usize) -> Told {
    let mut room = Lent::<u64>::new(random, 8);
    let mut expected = room.clone();
    let result = call(room.part().as_mut_ptr().cast());
    let answer: Answer = room.part().try_into().expect("eight numbers were lent");
    expected.write(&answer);
    assert_eq!(room, expected, "written beside the answer");
    (result, answer)
}

pub fn read(random: &mut Random, file: &[u8]) -> Told {
    // SAFETY: the slice is valid for its length, and the answer for its eight numbers.
    told(random, |answer| unsafe {
        sys::mw_read(file.as_ptr(), file.len(), answer)
    })
}

pub fn write(random: &mut Random, lists: &Lists, buffer: &mut Lent<u8>) -> Told {
    let Lists { ops, uses, deps } = lists;
    let buffer = buffer.part();
    // SAFETY: the slices are valid for their lengths, the answer for its eight numbers, and none overlaps another.
    told(random, |answer| unsafe {
        sys::mw_write(
            ops.as_ptr(),
            ops.len(),
            uses.as_ptr(),
            uses.len(),
            deps.as_ptr(),
            deps.len(),
            buffer.as_mut_ptr(),
            buffer.len(),
            answer,
        )
    })
}

pub fn bounds(random: &mut Random, file: &[u8]) -> Told {
    // SAFETY: the slice is valid for its length, and the answer for its eight numbers.
    told(random, |answer| unsafe {
        sys::mw_bounds(file.as_ptr(), file.len(), answer)
    })
}

pub fn verify(random: &mut Random, file: &[u8], interval: usize, starts: &[u16]) -> Told {
    // SAFETY: the slices are valid for their lengths, and the answer for its eight numbers.
    told(random, |answer| unsafe {
        sys::mw_verify(
            file.as_ptr(),
            file.len(),
            interval,
            starts.as_ptr(),
            starts.len(),
            answer,
        )
    })
}

/// The type of `sys::mw_search` and `sys::mw_plan`.
pub type Scheduler = unsafe extern "C" fn(
    *const u8,
    usize,
    usize,
    usize,
    usize,
    *mut u16,
    usize,
    *mut u64,
    usize,
    *mut Answer,
) -> usize;

pub fn schedule(
    scheduler: Scheduler,
    random: &mut Random,
    file: &[u8],
    request: mwelitunga::Request,
    starts: &mut Lent<u16>,
    rows: &mut Lent<u64>,
) -> Told {
    let (starts, rows) = (starts.part(), rows.part());
    // SAFETY: the slices are valid for their lengths, the answer for its eight numbers, and none overlaps another.
    told(random, |answer| unsafe {
        scheduler(
            file.as_ptr(),
            file.len(),
            request.cap,
            request.horizon,
            request.budget,
            starts.as_mut_ptr(),
            starts.len(),
            rows.as_mut_ptr(),
            rows.len(),
            answer,
        )
    })
}

/// What is lent to a replay.
#[derive(Clone, Debug, PartialEq)]
pub struct SessionMemory {
    pub rows: Lent<u64>,
    pub replies: Lent<u64>,
    pub starts: Lent<u16>,
    pub free_rows: Lent<u16>,
}

/// A replay. Where it is refused as a whole, all that is lent is expected to be as it was.
pub fn session(
    random: &mut Random,
    file: &[u8],
    [interval, horizon]: [usize; 2],
    calls: &[u64],
    memory: &mut SessionMemory,
) -> Told {
    let before = memory.clone();
    let rows = memory.rows.part();
    let replies = memory.replies.part();
    let starts = memory.starts.part();
    let free_rows = memory.free_rows.part();
    assert_eq!((starts.len(), free_rows.len()), (64, 24));
    // SAFETY: the slices are valid for their lengths, the starts for 64, the free rows for 24, the answer for its eight
    // numbers, and none overlaps another.
    let (result, answer) = told(random, |answer| unsafe {
        sys::mw_session(
            file.as_ptr(),
            file.len(),
            interval,
            horizon,
            calls.as_ptr(),
            calls.len(),
            rows.as_mut_ptr(),
            rows.len(),
            replies.as_mut_ptr(),
            replies.len(),
            starts.as_mut_ptr().cast(),
            free_rows.as_mut_ptr().cast(),
            answer,
        )
    });
    if result != 0 {
        assert_eq!(*memory, before, "written in spite of refusal {result}");
    }
    (result, answer)
}
