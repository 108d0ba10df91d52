//! Random loops within the rules of the file.

use super::Random;
use plain::file::{Dependence, Loop, Operation, Use};

/// How the numbers of a loop are drawn.
struct Style {
    /// Slots are 1 up to this one.
    slots: usize,
    /// The most uses of an operation.
    uses: usize,
    /// Durations are 1 up to this one.
    durations: usize,
    /// Delays are from this number below 0 to this one above.
    delays: [i32; 2],
    /// Distances are 0 up to this one.
    distances: usize,
    /// One dependence in so many may lead back within an iteration.
    circles: usize,
}

impl Style {
    /// Mostly tame, so that schedules exist; now and then anything that the file allows.
    fn new(random: &mut Random) -> Style {
        if random.once_in(8) {
            return Style {
                slots: 24,
                uses: 4,
                durations: 16,
                delays: [64, 64],
                distances: 15,
                circles: 2,
            };
        }
        Style {
            slots: random.one_of(&[1, 2, 2, 3, 4, 24]),
            uses: random.one_of(&[0, 1, 1, 2, 2, 3, 4]),
            durations: random.one_of(&[1, 1, 2, 3, 4]),
            delays: random.one_of(&[[0, 2], [0, 4], [1, 3], [3, 3], [4, 6]]),
            distances: random.one_of(&[0, 1, 1, 2, 3]),
            circles: random.one_of(&[3, 10, 100]),
        }
    }
}

/// A loop of up to 8 operations mostly, and of up to 64 now and then.
pub fn any(random: &mut Random) -> Loop {
    if random.once_in(12) {
        large(random)
    } else {
        small(random)
    }
}

/// A loop of up to 8 operations.
pub fn small(random: &mut Random) -> Loop {
    let operations = random.one_of(&[1, 1, 2, 2, 2, 3, 3, 3, 4, 4, 5, 6, 7, 8]);
    let dependences = random.below(2 * operations + 2);
    drawn(random, operations, dependences)
}

/// A loop of up to 64 operations and 256 dependences, now and then of exactly as many.
pub fn large(random: &mut Random) -> Loop {
    let operations = random.within(9..=64);
    let dependences = random.below(3 * operations);
    let operations = random.one_of(&[operations, operations, operations, 64]);
    let dependences = random.one_of(&[dependences, dependences, dependences, 256]);
    drawn(random, operations, dependences.min(256))
}

fn drawn(random: &mut Random, operations: usize, dependences: usize) -> Loop {
    let style = Style::new(random);
    Loop {
        operations: (0..operations).map(|_| operation(random, &style)).collect(),
        dependences: (0..dependences)
            .map(|_| dependence(random, &style, operations))
            .collect(),
    }
}

/// A loop of few operations on few slots, of which some are tied to the next one: it begins exactly so many cycles later,
/// as a dependence says not earlier, and another one not later. Intervals at the bounds often have no schedule then.
pub fn tied(random: &mut Random) -> Loop {
    let style = Style {
        slots: random.within(1..=2),
        uses: 2,
        durations: random.within(1..=3),
        delays: [0, 0],
        distances: 0,
        circles: 1,
    };
    let operations = random.within(2..=5);
    let mut described = Loop {
        operations: (0..operations).map(|_| operation(random, &style)).collect(),
        dependences: Vec::new(),
    };
    for from in 0..operations - 1 {
        if random.once_in(4) {
            continue;
        }
        let to = from + 1;
        let delay = random.signed(-2..=6);
        let forth = (from, to, delay);
        let back = (to, from, -delay);
        for (from, to, delay) in [forth, back] {
            described.dependences.push(Dependence {
                from,
                to,
                delay,
                distance: 0,
            });
        }
    }
    described
}

fn operation(random: &mut Random, style: &Style) -> Operation {
    let number = random.within(0..=style.uses);
    let mut slots: Vec<usize> = (0..number)
        .map(|_| random.within(1..=style.slots))
        .collect();
    slots.sort();
    slots.dedup();
    let most = if random.once_in(4) { 64 } else { 6 };
    Operation {
        latency: random.within(0..=most) as u8,
        uses: slots
            .into_iter()
            .map(|slot| Use {
                slot: slot as u8,
                duration: random.within(1..=style.durations) as u8,
            })
            .collect(),
    }
}

fn dependence(random: &mut Random, style: &Style, operations: usize) -> Dependence {
    let [below, above] = style.delays;
    let (mut from, mut to) = (random.below(operations), random.below(operations));
    let delay = random.signed(-below..=above);
    let distance = random.within(0..=style.distances);
    if distance == 0 && delay > 0 && !random.once_in(style.circles) {
        // Forward only, by number, so that no circle comes about.
        (from, to) = (from.min(to), from.max(to));
    }
    let alone = distance == 0 && from == to && !random.once_in(style.circles);
    Dependence {
        from,
        to,
        delay: if alone { -delay.abs() } else { delay },
        distance: distance as i32,
    }
}
