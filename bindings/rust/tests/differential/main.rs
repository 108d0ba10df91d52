//! The library, through the raw and the safe layer, against the plain implementation (`bindings/plain`): thousands of random
//! cases, each compared in full, the answer as well as all memory that was lent. Where a loop is small the plain
//! implementation is itself held to the definitions as they stand.
//!
//! The cases are the same in every run. A failure names its case and seed; `MWELITUNGA_TEST_SEED` gives another seed, and
//! `MWELITUNGA_TEST_ROUNDS` so many times as many cases. What came out is counted, and printed with `--nocapture`:
//! a test fails where something that can come out came out too rarely, so that it cannot pass by trying nothing.
//!
//! Refusal 9 is never met. A circle passes up to 64 operations, by dependences with a delay of up to 64 each, so its
//! delay is 4,096 at most; where its distance is 1 or more it asks for an interval of 4,096 at most, and where its
//! distance is 0, a delay above 0 is refused by 8 before.

mod definitions;
mod files;
mod lent;
mod places;
mod plans;
mod random;
mod reasons;
mod safe;
mod searches;
mod sessions;
mod tally;
mod verdicts;
mod writes;

use lent::Told;
use mwelitunga::sys::Answer;
use plain::Refusal;

/// What a C function is expected to tell: the numbers of an answer after the first, or a refusal.
fn expected<T>(plain: &Result<T, Refusal>, numbers: impl FnOnce(&T) -> Vec<usize>) -> Told {
    let mut answer: Answer = [0; 8];
    match plain {
        Ok(value) => {
            for (i, number) in numbers(value).into_iter().enumerate() {
                answer[i + 1] = number as u64;
            }
            (0, answer)
        }
        Err(refusal) => {
            answer[0] = refusal.detail as u64;
            (refusal.number, answer)
        }
    }
}
