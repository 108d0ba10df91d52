//! Random cases that are the same in every run: numbers, loops, damaged files, lists of a loop's numbers and lists of calls.

pub mod calls;
pub mod damage;
pub mod lists;
pub mod loops;

use std::env;
use std::ops::RangeInclusive;

/// The seed of all cases, unless `MWELITUNGA_TEST_SEED` has another.
const SEED: u64 = 20_250_117;

/// A source of numbers (splitmix64).
pub struct Random {
    state: u64,
}

impl Random {
    /// Any number.
    pub fn any(&mut self) -> u64 {
        self.state = self.state.wrapping_add(0x9E37_79B9_7F4A_7C15);
        let mut z = self.state;
        z = (z ^ (z >> 30)).wrapping_mul(0xBF58_476D_1CE4_E5B9);
        z = (z ^ (z >> 27)).wrapping_mul(0x94D0_49BB_1331_11EB);
        z ^ (z >> 31)
    }

    /// A number below a bound, which is above 0.
    pub fn below(&mut self, bound: usize) -> usize {
        (self.any() % bound as u64) as usize
    }

    /// A number of a range.
    pub fn within(&mut self, range: RangeInclusive<usize>) -> usize {
        range.start() + self.below(range.end() - range.start() + 1)
    }

    /// A signed number of a range.
    pub fn signed(&mut self, range: RangeInclusive<i32>) -> i32 {
        let wide = (range.end() - range.start()) as usize;
        range.start() + self.below(wide + 1) as i32
    }

    /// True once in so many times.
    pub fn once_in(&mut self, times: usize) -> bool {
        self.below(times) == 0
    }

    /// One of some values.
    pub fn one_of<T: Copy>(&mut self, values: &[T]) -> T {
        values[self.below(values.len())]
    }

    /// A byte.
    pub fn byte(&mut self) -> u8 {
        self.any() as u8
    }

    /// Some bytes.
    pub fn bytes(&mut self, number: usize) -> Vec<u8> {
        (0..number).map(|_| self.byte()).collect()
    }

    /// A number of 1 or more, small ones more often: with as many bits as any other up to a greatest number of bits.
    pub fn up_to_bits(&mut self, most: usize) -> usize {
        let bits = self.within(0..=most - 1);
        self.within(1 << bits..=(2 << bits) - 1)
    }

    /// A number that is in no range of the rules or stands at the edge of one.
    pub fn extreme(&mut self) -> usize {
        let any = self.any() as usize;
        self.one_of(&[
            0,
            4097,
            5000,
            65_536,
            1 << 32,
            usize::MAX - 1,
            usize::MAX,
            any,
        ])
    }
}

/// Names the case that is running, should it fail.
struct Running<'a> {
    name: &'a str,
    seed: u64,
    case: usize,
}

impl Drop for Running<'_> {
    fn drop(&mut self) {
        if std::thread::panicking() {
            eprintln!(
                "{}: failed in case {} of seed {} (MWELITUNGA_TEST_SEED)",
                self.name, self.case, self.seed
            );
        }
    }
}

/// The number that a variable has, where it is set.
fn variable(name: &str) -> Option<u64> {
    let text = env::var(name).ok()?;
    Some(
        text.parse()
            .unwrap_or_else(|_| panic!("{name} is no number: {text}")),
    )
}

/// Runs so many cases, each from a state of its own that follows from the seed, the name and the case's number.
/// `MWELITUNGA_TEST_ROUNDS` has them run that many times as often.
pub fn cases(name: &str, count: usize, mut case: impl FnMut(&mut Random)) {
    let seed = variable("MWELITUNGA_TEST_SEED").unwrap_or(SEED);
    let rounds = variable("MWELITUNGA_TEST_ROUNDS").unwrap_or(1) as usize;
    let named = name.bytes().fold(seed, |state, byte| {
        Random {
            state: state ^ u64::from(byte),
        }
        .any()
    });
    for number in 0..count * rounds {
        let running = Running {
            name,
            seed,
            case: number,
        };
        let mut random = Random {
            state: named.wrapping_add((number as u64) << 32),
        };
        case(&mut random);
        drop(running);
    }
}
