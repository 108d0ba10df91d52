//! Random lists of numbers for the writer: those of a loop, mostly with something wrong in them.

use super::{loops, Random};
use plain::file::{Dependence, Loop, Operation, Use};

/// The three lists that the writer takes.
#[derive(Clone, Debug, PartialEq)]
pub struct Lists {
    pub ops: Vec<i32>,
    pub uses: Vec<i32>,
    pub deps: Vec<i32>,
}

impl Lists {
    /// The numbers of a loop.
    pub fn of(described: &Loop) -> Lists {
        let mut lists = Lists {
            ops: Vec::new(),
            uses: Vec::new(),
            deps: Vec::new(),
        };
        for op in &described.operations {
            lists.ops.push(op.latency.into());
            lists.ops.push(op.uses.len() as i32);
            for u in &op.uses {
                lists
                    .uses
                    .extend([i32::from(u.slot), i32::from(u.duration)]);
            }
        }
        for d in &described.dependences {
            lists
                .deps
                .extend([d.from as i32, d.to as i32, d.delay, d.distance]);
        }
        lists
    }

    /// One of the lists, by number.
    pub fn list(&mut self, number: usize) -> &mut Vec<i32> {
        match number {
            0 => &mut self.ops,
            1 => &mut self.uses,
            _ => &mut self.deps,
        }
    }

    /// The bytes of a file with as many records.
    pub fn file_length(&self) -> usize {
        26 + self.ops.len() + self.uses.len() + self.deps.len()
    }
}

/// Any lists: a good third are those of a loop, and the others have one or two changes.
pub fn any(random: &mut Random) -> Lists {
    let described = match random.below(20) {
        0 => full(random),
        _ => loops::any(random),
    };
    let mut lists = Lists::of(&described);
    for _ in 0..random.one_of(&[0, 0, 1, 1, 1, 2]) {
        change(random, &mut lists);
    }
    lists
}

/// A loop with as many records of each kind as there may be, or one fewer.
fn full(random: &mut Random) -> Loop {
    let operations = random.one_of(&[63, 64, 64]);
    let dependences = random.one_of(&[255, 256, 256]);
    Loop {
        operations: (0..operations)
            .map(|_| Operation {
                latency: random.one_of(&[0, 1, 64]),
                uses: [1, 2, 23, 24]
                    .map(|slot| Use {
                        slot,
                        duration: random.one_of(&[1, 16]),
                    })
                    .into(),
            })
            .collect(),
        dependences: (0..dependences)
            .map(|_| Dependence {
                from: random.one_of(&[0, operations - 1]),
                to: random.below(operations),
                delay: random.one_of(&[-64, -1, 0, 64]),
                distance: random.one_of(&[0, 15]),
            })
            .collect(),
    }
}

/// One change. Some leave the lists of another loop.
fn change(random: &mut Random, lists: &mut Lists) {
    match random.below(16) {
        0..=2 => other_number(random, lists, 0),
        3..=5 => other_number(random, lists, 1),
        6..=9 => other_number(random, lists, 2),
        10 => other_length(random, lists),
        11 => at_limit(random, lists),
        12 => other_number_of_uses(random, lists),
        13 => one_more_use(random, lists),
        14 => other_slots(random, lists),
        _ => long(random, lists),
    }
}

/// A number at the edge of its range or past it, or far from any, in one place of a list.
fn other_number(random: &mut Random, lists: &mut Lists, list: usize) {
    let operations = (lists.ops.len() / 2) as i32;
    let numbers = lists.list(list);
    if numbers.is_empty() {
        return;
    }
    let at = random.below(numbers.len());
    let before = if at >= 2 { numbers[at - 2] } else { 0 };
    let edges: &[i32] = match (list, at % 2, at % 4) {
        (0, 0, _) => &[-1, 0, 64, 65],
        (0, ..) => &[-1, 0, 4, 5],
        (1, 0, _) => &[before, before, 0, 1, 24, 25],
        (1, ..) => &[0, 1, 16, 17],
        (_, _, 0 | 1) => &[-1, 0, operations - 1, operations, 63, 64],
        (_, _, 2) => &[-65, -64, 64, 65],
        _ => &[-1, 0, 15, 16],
    };
    numbers[at] = if random.once_in(3) {
        far(random, numbers[at])
    } else {
        random.one_of(edges)
    };
}

/// A number far from all ranges, or one that has the low bits of a number.
fn far(random: &mut Random, like: i32) -> i32 {
    let any = random.any() as i32;
    random.one_of(&[
        i32::MIN,
        i32::MIN + 1,
        i32::MAX - 1,
        i32::MAX,
        -128,
        128,
        255,
        256,
        like.wrapping_add(256),
        like.wrapping_sub(256),
        like.wrapping_add(1 << 16),
        like.wrapping_add(i32::MIN),
        any,
    ])
}

/// A list without its last numbers, or with some more.
fn other_length(random: &mut Random, lists: &mut Lists) {
    let number = random.below(3);
    let list = lists.list(number);
    match random.below(6) {
        0 => list.clear(),
        1 => list.extend(&[1, 1, 1][..random.within(1..=3)]),
        2 => list.extend(&[0, 0, 1, 1]),
        _ => list.truncate(list.len().saturating_sub(random.within(1..=4))),
    }
}

/// As many records as there may be of operations or dependences, or some more or fewer; the new ones ask for nothing.
fn at_limit(random: &mut Random, lists: &mut Lists) {
    let number = random.one_of(&[0, 2]);
    let most = [128, 0, 1024][number];
    let records = random.one_of(&[most - 4, most, most + 1, most + 2, most + 4, most + 8]);
    lists.list(number).resize(records, 0);
}

/// An operation that says another number of uses, or a use that nobody has.
fn other_number_of_uses(random: &mut Random, lists: &mut Lists) {
    let operations = lists.ops.len() / 2;
    if operations == 0 || random.once_in(3) {
        lists.uses.extend([1, 1]);
        return;
    }
    let op = random.below(operations);
    let step = random.one_of(&[-1, 1]);
    lists.ops[2 * op + 1] = lists.ops[2 * op + 1].wrapping_add(step);
    if random.once_in(2) {
        // Another one makes up for it, so that uses change hands.
        let other = random.below(operations);
        lists.ops[2 * other + 1] = lists.ops[2 * other + 1].wrapping_sub(step);
    }
}

/// A use more for the last operation, which may have four already.
fn one_more_use(random: &mut Random, lists: &mut Lists) {
    let Some(number) = lists.ops.last_mut() else {
        return;
    };
    *number = number.wrapping_add(1);
    let slot = random.within(1..=24) as i32;
    lists.uses.extend([slot, 1]);
}

/// The slots of two uses in a row, the other way round or the same.
fn other_slots(random: &mut Random, lists: &mut Lists) {
    let uses = lists.uses.len() / 2;
    if uses < 2 {
        return;
    }
    let first = 2 * random.below(uses - 1);
    if random.once_in(2) {
        lists.uses.swap(first, first + 2);
    } else {
        lists.uses[first + 2] = lists.uses[first];
    }
}

/// A list far longer than it may be.
fn long(random: &mut Random, lists: &mut Lists) {
    let number = random.below(3);
    let length = random.one_of(&[514, 1000, 1028, 4097, 65_536, 65_600]);
    lists.list(number).resize(length, 1);
}
