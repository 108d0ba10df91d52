//! Writing loop files: from lists of numbers, and from the loop of a file.

use crate::lent::Lent;
use crate::random::lists::Lists;
use crate::random::{self, damage, lists, Random};
use crate::reasons::{first_use, reason, REASONS};
use crate::tally::Tally;
use crate::{expected, lent, safe};
use mwelitunga::{Counts, Dependence, Loop, Operation, Use, Wrong};
use plain::writer::write_lists;

/// The length of a buffer: that of the file mostly; longer, shorter or of none at times.
fn any_room(random: &mut Random, lists: &Lists) -> usize {
    let length = lists.file_length().min(2000);
    match random.below(12) {
        0 => 0,
        1 => length - 1,
        2 => random.below(length),
        3..=5 => length + random.within(1..=40),
        6 => 1690,
        _ => length,
    }
}

/// Writes in all ways, and compares answers and memory.
fn compare(random: &mut Random, lists: &Lists, room: usize, tally: &mut Tally) {
    let Lists { ops, uses, deps } = lists;
    let before = Lent::<u8>::new(random, room);
    let [mut left, mut raw, mut lent] = [before.clone(), before.clone(), before.clone()];
    let plain = write_lists(ops, uses, deps, left.part());
    let case = || format!("{lists:?} in {room}");

    let told = expected(&plain, |&length| vec![length]);
    assert_eq!(lent::write(random, lists, &mut raw), told, "{}", case());
    assert_eq!(raw, left, "another buffer is left: {}", case());
    let answered = mwelitunga::write(ops, uses, deps, lent.part());
    let refused = answered.map_err(|error| error.refusal);
    assert_eq!(refused, plain.map_err(safe::refusal), "{}", case());
    assert_eq!(lent, left, "another buffer is left: {}", case());

    match plain {
        Ok(length) => {
            tally.count("written");
            tally.count(if room == length {
                "in a buffer of its length"
            } else {
                "in a longer buffer"
            });
            if length == mwelitunga::FILE_MOST {
                tally.count("the longest file");
            }
            let file = &left.part()[..length];
            let mut expected = before;
            expected.write(file);
            read_back(lists, file);
            assert_eq!(left, expected, "written behind the file: {}", case());
        }
        Err(refusal) => {
            tally.count(&reason(lists, room, refusal));
            assert_eq!(left, before, "written in spite of a refusal: {}", case());
        }
    }
    if let Some(described) = described(lists) {
        compare_loop(lists, &described, tally);
    }
}

/// What was written is read as the loop of the lists by all readers.
fn read_back(lists: &Lists, file: &[u8]) {
    let counts = Counts {
        operations: lists.ops.len() / 2,
        uses: lists.uses.len() / 2,
        dependences: lists.deps.len() / 4,
    };
    assert_eq!(mwelitunga::read(file), Ok(counts), "{lists:?}");
    let plain = plain::file::read(file).expect("what was written is read");
    assert_eq!(Lists::of(&plain), *lists);
    let described = described(lists).expect("what was written is a loop");
    let read = Loop::from_file(file);
    assert_eq!(read.as_ref(), Ok(&described));
    assert_eq!(safe::described(&plain), described);
    assert_eq!(described.to_file().as_deref(), Ok(file));
}

/// The loop of some lists, where a loop can say it: records are whole, there are as many uses as the operations say, and
/// operations have numbers of 0 or more.
fn described(lists: &Lists) -> Option<Loop> {
    let Lists { ops, uses, deps } = lists;
    if ops.len() % 2 != 0 || uses.len() % 2 != 0 || deps.len() % 4 != 0 {
        return None;
    }
    let mut rest = uses.as_slice();
    let mut described = Loop::default();
    for op in ops.chunks_exact(2) {
        let number = usize::try_from(op[1]).ok()?.checked_mul(2)?;
        let (own, others) = rest.split_at_checked(number)?;
        rest = others;
        described.operations.push(Operation {
            latency: op[0],
            uses: own.chunks_exact(2).map(used).collect(),
        });
    }
    for d in deps.chunks_exact(4) {
        described.dependences.push(Dependence {
            from: d[0].try_into().ok()?,
            to: d[1].try_into().ok()?,
            delay: d[2],
            distance: d[3],
        });
    }
    rest.is_empty().then_some(described)
}

fn used(numbers: &[i32]) -> Use {
    Use {
        slot: numbers[0],
        duration: numbers[1],
    }
}

/// The file of a loop, and what the error is about where there is none.
fn compare_loop(lists: &Lists, described: &Loop, tally: &mut Tally) {
    let Lists { ops, uses, deps } = lists;
    let mut buffer = [0; 1690];
    let plain = write_lists(ops, uses, deps, &mut buffer);
    match (plain, described.to_file()) {
        (Ok(length), Ok(file)) => {
            assert_eq!(file, buffer[..length], "{lists:?}");
            tally.count("loop written");
        }
        (Err(refusal), Err(error)) => {
            assert_eq!(error.refusal, safe::refusal(refusal), "{lists:?}");
            let label = wrong(lists, refusal.detail, &error.wrong);
            tally.count(label);
            let line = error.to_string();
            let ending = format!(" (refused {} at {})", refusal.number, refusal.detail);
            assert!(!line.contains("byte") && line.ends_with(&ending), "{line}");
        }
        (plain, safe) => panic!("{plain:?} and {safe:?} for {lists:?}"),
    }
}

/// Holds what an error is about to the lists and to the detail of its refusal, and names it.
fn wrong(lists: &Lists, detail: usize, wrong: &Wrong) -> &'static str {
    match *wrong {
        Wrong::Operations { number } => {
            assert_eq!((number, detail), (lists.ops.len() / 2, 2));
            "loop with a wrong number of operations"
        }
        Wrong::Dependences { number } => {
            assert_eq!((number, detail), (lists.deps.len() / 4, 18));
            "loop with a wrong number of dependences"
        }
        Wrong::Operation { op, latency, uses } => {
            assert_eq!(op, detail);
            assert_eq!([latency, uses as i32], lists.ops[2 * op..2 * op + 2]);
            "loop with a wrong operation"
        }
        Wrong::Use {
            number,
            op,
            place,
            given,
            before,
        } => {
            assert_eq!(number, detail);
            assert_eq!(
                [given.slot, given.duration],
                lists.uses[2 * number..2 * number + 2]
            );
            assert_eq!(first_use(lists, op) + place, number);
            assert!(place < lists.ops[2 * op + 1] as usize);
            match place {
                0 => assert_eq!(before, 0),
                _ => assert_eq!(before, lists.uses[2 * number - 2]),
            }
            "loop with a wrong use"
        }
        Wrong::Dependence {
            number,
            given,
            operations,
        } => {
            assert_eq!(number, detail);
            let fields = [
                given.from as i32,
                given.to as i32,
                given.delay,
                given.distance,
            ];
            assert_eq!(fields, lists.deps[4 * number..4 * number + 4]);
            assert_eq!(operations, lists.ops.len() / 2);
            "loop with a wrong dependence"
        }
        _ => panic!("no such error was known: {wrong:?}"),
    }
}

#[test]
fn writes() {
    let mut tally = Tally::new("write");
    random::cases("writes", 60_000, |random| {
        let lists = lists::any(random);
        let room = any_room(random, &lists);
        compare(random, &lists, room, &mut tally);
    });
    tally.print();
    tally.at_least(10_000, "written");
    tally.at_least(5000, "in a buffer of its length");
    tally.at_least(5000, "in a longer buffer");
    tally.at_least(200, "the longest file");
    tally.at_least(10_000, "loop written");
    for what in REASONS {
        tally.at_least(100, what);
    }
    tally.at_least(500, "20 buffer that is short");
    for what in ["operation", "use", "dependence"] {
        tally.at_least(500, &format!("loop with a wrong {what}"));
    }
    for what in ["operations", "dependences"] {
        tally.at_least(100, &format!("loop with a wrong number of {what}"));
    }
}

/// Lists that differ from loop A's in one number, every beginning of each of its lists, and every buffer up to its length.
#[test]
fn lists_near_loop_a() {
    let mut tally = Tally::new("near A");
    let file = include_bytes!("../../../../examples/a.loop");
    let whole = Lists::of(&plain::file::read(file).expect("loop A is a loop"));
    let length = whole.file_length();
    random::cases("lists near A", 1, |random| {
        for room in 0..length + 10 {
            compare(random, &whole, room, &mut tally);
        }
        for list in 0..3 {
            let numbers = whole.clone().list(list).clone();
            for at in 0..numbers.len() {
                let mut lists = whole.clone();
                lists.list(list).truncate(at);
                compare(random, &lists, length, &mut tally);
                let far = [i32::MIN, i32::MIN + 1, -256, -255, 255, 256, i32::MAX];
                for value in (-130..=130).chain(far) {
                    let mut lists = whole.clone();
                    lists.list(list)[at] = value;
                    compare(random, &lists, length, &mut tally);
                }
            }
        }
    });
    tally.print();
    tally.at_least(500, "written");
    tally.at_least(length - 2, "20 buffer that is short");
    // No operation of loop A has two uses, and there are few records.
    let never = [
        " 3 too many operations",
        " 3 too many dependences",
        " 5 slot that does not rise",
    ];
    for what in REASONS {
        if !never.contains(&what) {
            tally.at_least(1, what);
        }
    }
}

/// Any file: an accepted one is taken apart and written again as it was, a refused one is refused as by `read`.
#[test]
fn loops_of_files() {
    let mut tally = Tally::new("from_file");
    random::cases("loops of files", 50_000, |random| {
        let file = damage::any(random);
        let plain = plain::file::read(&file);
        tally.result("taken apart", &plain);
        let answered = Loop::from_file(&file);
        assert_eq!(
            answered.as_ref().err(),
            mwelitunga::read(&file).as_ref().err(),
            "{file:?}"
        );
        let expected = plain.as_ref().map(safe::described);
        assert_eq!(
            answered,
            expected.map_err(|&refusal| safe::refusal(refusal))
        );
        if let Ok(described) = answered {
            assert_eq!(described.to_file(), Ok(file));
        }
    });
    tally.print();
    tally.at_least(10_000, "taken apart");
    tally.refusals_at_least(500, &[1, 2, 3, 4, 5, 6]);
}
