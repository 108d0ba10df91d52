// The library's C functions, as the Rust crate declares them. What a call gives back and writes is in a Memory, so that calls can
// be compared whole.
//
// What the header asks of a caller holds in each unsafe block: a pointer is that of a slice or an array, goes with its length
// (eight numbers for an answer, 64 starts and 24 numbers of free rows for a session), and what is written overlaps nothing.

use crate::sys::{
    mw_bounds, mw_plan, mw_read, mw_search, mw_session, mw_verify, mw_write, Answer, FreeRows,
    SessionStarts as Starts,
};

// The largest cap and budget, the rows that a search is lent, and the horizon of every session.
pub const CAP: usize = 4096;
pub const BUDGET: usize = 1_000_000;
pub const ROWS: usize = 4096;
pub const SESSION_HORIZON: usize = 4096;

// The bytes of the longest file.
const FILE_MOST: usize = 1690;

#[link(name = "mwelitunga", kind = "static")]
extern "C" {}

#[derive(PartialEq)]
pub struct Memory {
    pub result: usize,
    pub answer: Answer,
    pub starts: Starts,
    pub free_rows: FreeRows,
    pub rows: Vec<u64>,
    pub replies: Vec<u64>,
    pub buffer: Vec<u8>,
}

impl Memory {
    // With room for the replies to n calls, and filled with what no call leaves.
    pub fn new(n: usize) -> Memory {
        Memory {
            result: usize::MAX,
            answer: [u64::MAX; 8],
            starts: [12345; 64],
            free_rows: [12345; 24],
            rows: vec![u64::MAX; ROWS],
            replies: vec![u64::MAX; 2 * n],
            buffer: vec![255; FILE_MOST],
        }
    }
}

// What a search or a plan is asked for.
#[derive(Clone, Copy)]
pub struct Asked {
    pub cap: usize,
    pub horizon: usize,
    pub budget: usize,
}

impl Asked {
    // With the largest cap and budget.
    pub const fn below(horizon: usize) -> Asked {
        Asked {
            cap: CAP,
            horizon,
            budget: BUDGET,
        }
    }
}

pub fn proved_read(file: &[u8], m: &mut Memory) {
    m.result = unsafe { mw_read(file.as_ptr(), file.len(), &mut m.answer) };
}

// The numbers of a loop, as mw_write takes them.
pub struct Lists {
    pub ops: Vec<i32>,
    pub uses: Vec<i32>,
    pub deps: Vec<i32>,
}

pub fn proved_write(lists: &Lists, m: &mut Memory) {
    m.result = unsafe {
        mw_write(
            lists.ops.as_ptr(),
            lists.ops.len(),
            lists.uses.as_ptr(),
            lists.uses.len(),
            lists.deps.as_ptr(),
            lists.deps.len(),
            m.buffer.as_mut_ptr(),
            m.buffer.len(),
            &mut m.answer,
        )
    };
}

pub fn proved_bounds(file: &[u8], m: &mut Memory) {
    m.result = unsafe { mw_bounds(file.as_ptr(), file.len(), &mut m.answer) };
}

pub fn proved_verify(file: &[u8], interval: usize, starts: &[u16], m: &mut Memory) {
    m.result = unsafe {
        mw_verify(
            file.as_ptr(),
            file.len(),
            interval,
            starts.as_ptr(),
            starts.len(),
            &mut m.answer,
        )
    };
}

// mw_search or mw_plan, which take the same.
type Scheduler = unsafe extern "C" fn(
    *const u8,
    usize,
    usize,
    usize,
    usize,
    *mut u16,
    usize,
    *mut u64,
    usize,
    *mut Answer,
) -> usize;

fn schedule(call: Scheduler, file: &[u8], asked: Asked, m: &mut Memory) {
    m.result = unsafe {
        call(
            file.as_ptr(),
            file.len(),
            asked.cap,
            asked.horizon,
            asked.budget,
            m.starts.as_mut_ptr(),
            m.starts.len(),
            m.rows.as_mut_ptr(),
            m.rows.len(),
            &mut m.answer,
        )
    };
}

pub fn proved_search(file: &[u8], asked: Asked, m: &mut Memory) {
    schedule(mw_search, file, asked, m);
}

pub fn proved_plan(file: &[u8], asked: Asked, m: &mut Memory) {
    schedule(mw_plan, file, asked, m);
}

pub fn proved_session(file: &[u8], interval: usize, calls: &[u64], m: &mut Memory) {
    m.result = unsafe {
        mw_session(
            file.as_ptr(),
            file.len(),
            interval,
            SESSION_HORIZON,
            calls.as_ptr(),
            calls.len(),
            m.rows.as_mut_ptr(),
            m.rows.len(),
            m.replies.as_mut_ptr(),
            m.replies.len(),
            &mut m.starts,
            &mut m.free_rows,
            &mut m.answer,
        )
    };
}
