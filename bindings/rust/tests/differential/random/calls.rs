//! Random lists of session calls, as the numbers that the library takes.

use super::Random;

/// What the calls of a list are about.
pub struct About {
    pub operations: usize,
    pub interval: usize,
    pub horizon: usize,
}

/// How often each kind of call comes, of 1 to 6.
struct Style {
    kinds: &'static [u64],
    /// One number in so many is far out of range.
    extremes: usize,
}

const STYLES: [Style; 4] = [
    Style {
        kinds: &[1, 1, 1, 1, 2, 2, 2, 3, 3, 4, 4, 5, 6, 6],
        extremes: 40,
    },
    Style {
        kinds: &[1, 1, 2, 3],
        extremes: 40,
    },
    Style {
        kinds: &[1, 2, 4, 4, 4, 4, 4, 4, 5, 6],
        extremes: 20,
    },
    Style {
        kinds: &[1, 2, 3, 4, 5, 6],
        extremes: 3,
    },
];

/// A list of 0 to 60 calls; now and then with a kind that there is not, or cut off within a call.
pub fn any(random: &mut Random, about: &About) -> Vec<u64> {
    let mut calls = whole(random, about);
    if random.once_in(12) && !calls.is_empty() {
        let at = 3 * random.below(calls.len() / 3);
        calls[at] = random.one_of(&[0, 7, 8, 255, 256, 1 << 32, (1 << 32) + 1, u64::MAX]);
    }
    if random.once_in(12) {
        let kind = random.one_of(&[0, 1, 4, 9]);
        calls.extend(&[kind, 0][..random.within(1..=2)]);
    }
    calls
}

/// A list of 0 to 60 whole calls.
fn whole(random: &mut Random, about: &About) -> Vec<u64> {
    let number = random.one_of(&[0, 1, 2, 5, 10, 20, 40, 60]);
    let style = &STYLES[random.below(STYLES.len())];
    (0..number)
        .flat_map(|_| call(random, about, style))
        .collect()
}

fn call(random: &mut Random, about: &About, style: &Style) -> [u64; 3] {
    let kind = random.one_of(style.kinds);
    let (mut a, mut b) = match kind {
        1..=3 => (random.below(about.operations), start(random, about)),
        6 => (random.within(0..=8), 0),
        _ => (0, 0),
    };
    if random.once_in(style.extremes) {
        a = random.one_of(&[about.operations, 17, 63, 64, 65, 256, with_high_bits(a)]);
    }
    if random.once_in(style.extremes) {
        b = random.extreme();
    }
    if random.once_in(2 * style.extremes) {
        a = random.extreme();
    }
    [kind, a as u64, b as u64]
}

/// A number whose low 32 bits are those of another.
fn with_high_bits(like: usize) -> usize {
    like + (1 << 32)
}

/// A start within the first iterations mostly, and now and then at the horizon.
fn start(random: &mut Random, about: &About) -> usize {
    match random.below(12) {
        0 => about.horizon - 1,
        1 => about.horizon,
        2 => random.below(about.horizon),
        _ => random.below((2 * about.interval + 6).min(about.horizon)),
    }
}
