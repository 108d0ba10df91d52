//! Reading and bounds.

use crate::random::{self, damage, loops, Random};
use crate::tally::Tally;
use crate::{definitions, expected, lent, safe};

/// Reads a file and takes its bounds in all ways.
fn compare(random: &mut Random, file: &[u8], reads: &mut Tally, bounds: &mut Tally) {
    let counts = plain::file::read(file).map(|described| safe::counts(&described));
    reads.result("read", &counts);
    let answered = counts.map_err(safe::refusal);
    assert_eq!(mwelitunga::read(file), answered, "{file:?}");
    let told = expected(&counts, |counts| {
        vec![counts.operations, counts.uses, counts.dependences]
    });
    assert_eq!(lent::read(random, file), told, "{file:?}");

    let bounded = plain::bounds::bounds(file);
    bounds.result("bounded", &bounded);
    let answered = bounded.map(safe::bounds).map_err(safe::refusal);
    assert_eq!(mwelitunga::bounds(file), answered, "{file:?}");
    let told = expected(&bounded, |bounds| vec![bounds.resource, bounds.recurrence]);
    assert_eq!(lent::bounds(random, file), told, "{file:?}");
}

#[test]
fn files() {
    let mut reads = Tally::new("read");
    let mut bounds = Tally::new("bounds");
    random::cases("files", 50_000, |random| {
        let file = damage::any(random);
        compare(random, &file, &mut reads, &mut bounds);
    });
    reads.print();
    bounds.print();
    reads.at_least(10_000, "read");
    bounds.at_least(10_000, "bounded");
    reads.refusals_at_least(500, &[1, 2, 3, 4, 5, 6]);
    bounds.refusals_at_least(500, &[1, 2, 3, 4, 5, 6, 8]);
}

/// Every file that differs from loop A's in one byte, and every beginning of it.
#[test]
fn files_near_loop_a() {
    let mut reads = Tally::new("near A");
    let mut bounds = Tally::new("near A");
    let whole = include_bytes!("../../../../examples/a.loop").to_vec();
    let mut number = 0;
    random::cases("near A", 1, |random| {
        for at in 0..whole.len() {
            compare(random, &whole[..at], &mut reads, &mut bounds);
            for value in 0..=255 {
                let mut file = whole.clone();
                file[at] = value;
                compare(random, &file, &mut reads, &mut bounds);
                number += 1;
            }
        }
    });
    reads.print();
    bounds.print();
    assert!(number >= 50 * 256);
    reads.refusals_at_least(26, &[1, 2, 3, 4, 5, 6]);
    bounds.refusals_at_least(5, &[8]);
}

/// The plain recurrence bound against the quotients of the circles, over small loops.
#[test]
fn recurrence_bounds() {
    let mut tally = Tally::new("quotients");
    random::cases("quotients", 20_000, |random| {
        let described = loops::small(random);
        if described.dependences.len() <= 9 {
            let bounds = plain::bounds::of_loop(&described);
            let by_quotients = definitions::by_quotients(&described);
            tally.result("bounded", &bounds);
            assert_eq!(
                bounds.map(|bounds| bounds.recurrence).ok(),
                by_quotients,
                "{described:?}"
            );
            if by_quotients > Some(1) {
                tally.count("above 1");
            }
        }
    });
    tally.print();
    tally.at_least(5000, "bounded");
    tally.at_least(1000, "above 1");
    tally.refusals_at_least(500, &[8]);
}
