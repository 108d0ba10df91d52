//! The C functions of the library as they are: the unsafe layer below the safe functions of this crate.
//!
//! `include/mwelitunga.h` in the repository has the full description. For every function:
//!
//! - Any bytes, numbers and starts may be passed: what is out of range is refused, or has a stated result.
//! - A list is a pointer and the number of elements behind it. No pointer may be null or misaligned, even where the
//!   number is 0; the pointer of an empty slice is fine.
//! - What is written may not overlap anything else that is passed to the same call.
//! - Nothing is kept after the call, and there is no hidden state, so threads may call at the same time.
//!
//! # Safety
//!
//! Every function is safe to call where each pointer is valid for reading (`*const`) or for reading and writing (`*mut`)
//! of as many elements as its length says (for an array, as many as its type says), and the rules above are kept.

// The library's sizes and 64-bit numbers are of one width: the casts between them in this crate lose nothing.
const _: () = assert!(usize::BITS == u64::BITS);

/// What every function but the last three writes: all eight numbers, each time.
///
/// Where the function returns 0 the first number is 0, and the function says what follows. Where it returns the number
/// of a refusal, the first is its detail, and the others are 0 but for the probes of [`mw_search`] and
/// [`mw_plan`].
pub type Answer = [u64; 8];

/// The room for starts that [`mw_session`] writes: all of it, each time it returns 0.
pub type SessionStarts = [u16; 64];

/// In how many rows of a session's table each slot is free: element `s - 1` is the number of slot `s`, 1 to 24. [`mw_session`]
/// writes all of them, each time it returns 0.
pub type FreeRows = [u16; 24];

/// The start that [`mw_session`] writes for an operation that is not placed, and for a number that is no operation's.
pub const NOT_PLACED: u16 = 65535;

extern "C" {
    /// Reads a loop file. `answer[1]`, `[2]`, `[3]`: the numbers of operations, uses and dependences.
    ///
    /// Refusals: 1 to 6.
    pub fn mw_read(file: *const u8, file_length: usize, answer: *mut Answer) -> usize;

    /// Writes the file of a loop to the beginning of a buffer, from three flat lists of any numbers: `ops` has two an
    /// operation (latency, number of uses), `uses` two a use (slot, duration), in the order of the operations, and `deps`
    /// four a dependence (from, to, delay, distance). `answer[1]`: the number of bytes of the file.
    ///
    /// Refusals: 3 for the list of operations (detail 2) and then for that of dependences (18), where it is no whole number
    /// of records or not of so many as a file has; 4, operation by operation; 5 for the number of uses (detail: how many
    /// whole uses were given), then use by use; 6, dependence by dependence; 20. The detail of 4, of 5 for a use, and of 6
    /// is the number of the record in its list. After a refusal the buffer is as it was, and else it is behind the file.
    pub fn mw_write(
        ops: *const i32,
        ops_length: usize,
        uses: *const i32,
        uses_length: usize,
        deps: *const i32,
        deps_length: usize,
        buffer: *mut u8,
        buffer_length: usize,
        answer: *mut Answer,
    ) -> usize;

    /// The two lower bounds of the interval. `answer[1]`: the resource bound. `answer[2]`: the recurrence bound.
    ///
    /// Refusals: 1 to 6, 8, 9.
    pub fn mw_bounds(file: *const u8, file_length: usize, answer: *mut Answer) -> usize;

    /// The verdict on proposed starts. `answer[1]`: 0 where they are legal; 1 where a dependence is broken, whose
    /// number is `answer[2]`; 2 where two operations conflict, which are `answer[2]` and `answer[3]`, and `answer[4]` is
    /// the number of the first place in which the second meets the first: 32 times a cycle of the second, and the slot.
    ///
    /// Refusals: 1 to 6, 7, 20, 15.
    pub fn mw_verify(
        file: *const u8,
        file_length: usize,
        interval: usize,
        starts: *const u16,
        starts_length: usize,
        answer: *mut Answer,
    ) -> usize;

    /// The search. `answer[1]`: the interval. `answer[2]`, `[3]`: the resource and the recurrence bound. `answer[4]`:
    /// the number of stages, the last occupied cycle divided by the interval, plus 1. `answer[5]`: the probes made, also for
    /// refusals 10 and 11.
    ///
    /// Refusals: 1 to 6, 7, 20 for the starts and then for the rows, 8, 9, then 10 or 11. The starts are written
    /// where the result is 0, one for each operation. The first 4,096 rows are cleared where it is 0, 10 or 11.
    pub fn mw_search(
        file: *const u8,
        file_length: usize,
        cap: usize,
        horizon: usize,
        budget: usize,
        starts: *mut u16,
        starts_length: usize,
        rows: *mut u64,
        rows_length: usize,
        answer: *mut Answer,
    ) -> usize;

    /// The plan. `answer[1]`: the interval. `answer[2]`, `[3]`: the resource and the recurrence bound. `answer[4]`: the
    /// number of stages. `answer[5]`: 1 where no smaller interval has a legal list of starts, 0 where that is not known;
    /// for refusals 10 and 11, the probes made.
    ///
    /// Refusals, starts and rows: as those of [`mw_search`].
    pub fn mw_plan(
        file: *const u8,
        file_length: usize,
        cap: usize,
        horizon: usize,
        budget: usize,
        starts: *mut u16,
        starts_length: usize,
        rows: *mut u64,
        rows_length: usize,
        answer: *mut Answer,
    ) -> usize;

    /// The replay of a list of session calls, three numbers a call: its kind (1 place, 2 force, 3 remove, 4 checkpoint,
    /// 5 release, 6 rollback) and two arguments. `answer[1]`: the number of calls. `answer[2]`: how many checkpoints
    /// are open at the end.
    ///
    /// Each call has two numbers in `replies`: 0 and the value, or its refusal's number and detail; that of 17 is the
    /// number of a place. The first `interval` rows become the table of the placed operations. `starts` is written in full,
    /// and so is `free_rows`, with the number of those rows in which each slot is free.
    ///
    /// Refusals: 255 for a call of another kind, then for a cut-off call; 254 where `replies` is too short; 1 to 6; 7;
    /// 20. A refusal writes nothing but the answer.
    pub fn mw_session(
        file: *const u8,
        file_length: usize,
        interval: usize,
        horizon: usize,
        calls: *const u64,
        calls_length: usize,
        rows: *mut u64,
        rows_length: usize,
        replies: *mut u64,
        replies_length: usize,
        starts: *mut SessionStarts,
        free_rows: *mut FreeRows,
        answer: *mut Answer,
    ) -> usize;

    /// The stage of a start; 0 where the interval is 0.
    pub fn mw_stage(interval: usize, start: usize) -> usize;

    /// The cycle of a start; the start itself where the interval is 0.
    pub fn mw_cycle(interval: usize, start: usize) -> usize;

    /// The order of an operation in its stage. All of the list counts. An operation past its end is taken to start at 0.
    pub fn mw_order(interval: usize, starts: *const u16, starts_length: usize, op: usize) -> usize;
}
