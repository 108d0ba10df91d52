//! The rules of the scheduler in plain Rust, with nothing proved and no other crate.
//!
//! The tests of `bindings/rust` hold the proved library to it, and `bench/` measures the library against it. It is written
//! from the rules, shares nothing with the library, and is as fast as one would write it in Rust.
//!
//! | Module | Content | Refusals |
//! |---|---|---|
//! | [`file`] | what a loop file describes, and how it is read | 1 to 6 |
//! | [`writer`] | how a loop file is written | 3 to 6, 20 |
//! | [`bounds`] | the two lower bounds of the interval | 8, 9 |
//! | [`legality`] | whether a dependence holds, whether operations conflict, and in which place | |
//! | [`table`] | the rows, in which operations take their slots | |
//! | [`places`] | stage, cycle and order of an operation, the number of stages | |
//! | [`verifier`] | the verdict on a list of starts | 7, 20, 15 |
//! | [`search`] | the smallest interval and its first list of starts | 7, 20, 10, 11 |
//! | [`session`] | operations placed, forced, removed and taken back | 7, 20, 12 to 19 |
//! | [`replay`] | the calls of a list, made on a session | 255, 254 |
//!
//! `bench/` takes this file as a module of its programs, so the paths from one module to another begin with `super`.

pub mod bounds;
pub mod file;
pub mod legality;
pub mod places;
pub mod replay;
pub mod search;
pub mod session;
pub mod table;
pub mod verifier;
pub mod writer;

/// The largest interval, cap and horizon, and the number of rows that a search is lent.
pub const LONGEST: usize = 4096;

/// Why a call has no answer: the number of the refusal, and its detail.
#[derive(Clone, Copy, Debug, PartialEq)]
pub struct Refusal {
    pub number: usize,
    pub detail: usize,
}

/// A refusal.
fn refused<T>(number: usize, detail: usize) -> Result<T, Refusal> {
    Err(Refusal { number, detail })
}

/// A refusal, unless all is right.
fn check(right: bool, number: usize, detail: usize) -> Result<(), Refusal> {
    if right {
        Ok(())
    } else {
        refused(number, detail)
    }
}

/// Refusal 7 with a detail, unless a number is 1 to the most.
fn check_range(number: usize, most: usize, detail: usize) -> Result<(), Refusal> {
    check((1..=most).contains(&number), 7, detail)
}
