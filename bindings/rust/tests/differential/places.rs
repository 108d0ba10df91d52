//! Stage, cycle and order, for any numbers.

use crate::random::{self, Random};
use crate::tally::Tally;
use mwelitunga::{cycle, order, stage};
use plain::places;

/// An interval of any size, also 0.
fn any_interval(random: &mut Random) -> usize {
    match random.below(8) {
        0 => 0,
        1 => random.extreme(),
        2 => random.within(1..=4096),
        _ => random.within(1..=20),
    }
}

/// A list of any length up to 80, of small starts or of any.
fn any_starts(random: &mut Random) -> Vec<u16> {
    let most = random.one_of(&[4, 20, 4096, 65_536]);
    let length = random.one_of(&[0, 1, 2, 5, 9, 64, 80]);
    (0..length).map(|_| random.below(most) as u16).collect()
}

/// An operation of the list mostly, and one past its end at times.
fn any_operation(random: &mut Random, length: usize) -> usize {
    match random.below(6) {
        0 => random.extreme(),
        1 => length,
        _ => random.below(length.max(1)),
    }
}

#[test]
fn places_of_starts() {
    let mut tally = Tally::new("order");
    random::cases("places", 20_000, |random| {
        let interval = any_interval(random);
        let start = if random.once_in(4) {
            random.any() as usize
        } else {
            random.below(70_000)
        };
        assert_eq!(stage(interval, start), places::stage(interval, start));
        assert_eq!(cycle(interval, start), places::cycle(interval, start));
        let starts = any_starts(random);
        let op = any_operation(random, starts.len());
        let plain = places::order(interval, &starts, op);
        let case = || format!("{op} of {starts:?} at {interval}");
        assert_eq!(order(interval, &starts, op), plain, "{}", case());
        tally.count(if plain == 0 { "first" } else { "later" });
        if interval == 0 {
            tally.count("interval 0");
        }
        if op >= starts.len() {
            tally.count("past the list");
        }
    });
    tally.print();
    for what in ["first", "later", "interval 0", "past the list"] {
        tally.at_least(1000, what);
    }
}
