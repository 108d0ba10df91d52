//! Modulo scheduling of loops, by a library whose every answer is proved.
//!
//! A *loop file* has the operations of a loop, the slots that each operation uses, and the dependences between
//! operations (`docs/FORMAT.md` in the repository describes it byte by byte). From it come the smallest *interval* at
//! which iterations of the loop can follow one another, and the *start* of each operation: iteration `i` begins the operation
//! in cycle `i * interval + start`.
//!
//! | Function | What it does |
//! |---|---|
//! | [`read`] | how many operations, uses and dependences a file has |
//! | [`Loop::to_file`], [`write()`] | the file of a loop: of a plain value, or of flat lists of numbers in lent memory |
//! | [`Loop::from_file`] | the loop of a file, as a plain value |
//! | [`bounds`] | two lower bounds of the interval |
//! | [`search`], [`search_in`] | the smallest interval and its first list of starts |
//! | [`plan`] | a legal list of starts, found without a search where that is quick, and whether its interval is the smallest |
//! | [`verify`] | the verdict on any proposed list of starts |
//! | [`stage`], [`cycle`], [`order`] | where in the schedule an operation is |
//! | [`replay`] | a session, in which operations are placed, forced, removed and taken back, and in how many rows each slot is then free |
//!
//! Every function takes any bytes and numbers whatever. What it cannot answer it refuses, by a [`Refusal`] with a number
//! and a detail. Where operations conflict, the verdict or the refusal says in which [`Place`]; where a [`Loop`] has no file,
//! a [`WriteError`] says which record of it is wrong.
//!
//! ```
//! let file = [
//!     1, 3, // version 1, three sections
//!     b'O', b'P', b'E', b'R', 26, 0, 6, 0, // the operations: from byte 26, 6 bytes
//!     b'U', b'S', b'E', b'S', 32, 0, 6, 0, // the uses: from byte 32, 6 bytes
//!     b'D', b'E', b'P', b'S', 38, 0, 12, 0, // the dependences: from byte 38, 12 bytes
//!     2, 1, 3, 1, 1, 1, // three operations, of latency 2, 3 and 1, with one use each
//!     1, 1, 2, 2, 1, 1, // slot 1 for 1 cycle; slot 2 for 2; slot 1 for 1
//!     0, 1, 2, 0, // operation 1 begins 2 cycles after operation 0 or later
//!     1, 2, 3, 0, // operation 2 begins 3 cycles after operation 1 or later
//!     1, 1, 3, 1, // operation 1 of the next iteration begins 3 cycles after operation 1 or later
//! ];
//! let schedule = mwelitunga::search(&file, mwelitunga::Request::default())?;
//! println!("{schedule}");
//! assert_eq!(schedule.interval, 3);
//! assert_eq!(schedule.starts, [0, 2, 5]);
//! # Ok::<(), mwelitunga::SearchError>(())
//! ```
//!
//! What is proved is the library. This crate only passes memory to it and takes its answers apart; tests hold both
//! together to a plain implementation of the same rules.

#![warn(missing_docs)]
#![deny(unsafe_op_in_unsafe_fn)]

mod bounds;
mod conflict;
mod file;
mod loops;
mod places;
mod plan;
mod refusal;
mod search;
mod session;
pub mod sys;
mod verifier;
mod writer;

pub use bounds::{bounds, Bounds};
pub use conflict::Place;
pub use file::{read, Counts, FILE_MOST, OPERATIONS_MOST};
pub use loops::{Dependence, Loop, Operation, Use};
pub use places::{cycle, order, stage};
pub use plan::{plan, Plan};
pub use refusal::{Kind, Refusal};
pub use search::{search, search_in, Found, Request, Schedule, SearchError, SEARCH_ROWS};
pub use session::{replay, Call, Replay, Reply};
pub use verifier::{verify, Verdict};
pub use writer::{write, ListError, WriteError, Wrong};

/// The version of this crate, which is that of the library and its C header (`MWELITUNGA_VERSION`).
pub const VERSION: &str = env!("CARGO_PKG_VERSION");

/// The page of the crate, so that its example is run with those of the documentation.
#[cfg(doctest)]
#[doc = include_str!("../README.md")]
struct Page;
