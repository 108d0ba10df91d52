//! The verdict on proposed starts.

use crate::random::{self, damage, loops, Random};
use crate::tally::Tally;
use crate::{definitions, expected, lent, safe};
use plain::bounds::{self, earliest};
use plain::file::{self, Loop};
use plain::verifier::{self, Verdict};

/// An interval: small mostly, the bound of the loop's dependences now and then, and out of range at times.
fn any_interval(random: &mut Random, described: &Loop) -> usize {
    match random.below(16) {
        0 => random.extreme(),
        1 => random.one_of(&[4095, 4096]),
        2..=6 => bounds::of_loop(described).map_or(5, |bounds| bounds.larger()),
        7 => random.within(1..=4096),
        _ => random.within(1..=12),
    }
}

/// A list of starts for a loop: often one that meets its dependences, a little later here and there; of another length at
/// times, and with a start that is too late.
fn any_starts(random: &mut Random, described: &Loop, interval: usize) -> Vec<u16> {
    let operations = described.operations.len();
    let met = earliest(described, interval.clamp(1, 4096)).filter(|_| !random.once_in(4));
    let mut starts: Vec<u16> = match met {
        Some(starts) => starts.iter().map(|&start| start as u16).collect(),
        None => (0..operations).map(|_| random.below(16) as u16).collect(),
    };
    if random.once_in(3) {
        let later = random.below(9);
        let from = random.below(operations);
        starts[from..]
            .iter_mut()
            .for_each(|start| *start += later as u16);
    }
    if random.once_in(6) {
        let at = random.below(operations);
        starts[at] = random.below(30) as u16;
    }
    if random.once_in(12) {
        let at = random.below(operations);
        starts[at] = random.one_of(&[4095, 4096, 4097, 32_767, 32_768, 65_535]);
    }
    match random.below(10) {
        0 => starts.truncate(random.below(operations)),
        1 => starts.extend([65_535, 0, 4096]),
        _ => (),
    }
    starts
}

fn count(tally: &mut Tally, verdict: &Verdict) {
    tally.count(match verdict {
        Verdict::Legal => "legal",
        Verdict::Broken { .. } => "broken",
        Verdict::Conflict { first, second, .. } if first == second => "conflict with itself",
        Verdict::Conflict { place, .. } if place.cycle > 0 => "conflict in a later cycle",
        Verdict::Conflict { .. } => "conflict",
    });
}

fn numbers(verdict: &Verdict) -> Vec<usize> {
    match *verdict {
        Verdict::Legal => vec![0],
        Verdict::Broken { dependence } => vec![1, dependence],
        Verdict::Conflict {
            first,
            second,
            place,
        } => vec![2, first, second, place.number()],
    }
}

#[test]
fn verdicts() {
    let mut tally = Tally::new("verify");
    random::cases("verdicts", 50_000, |random| {
        let described = loops::any(random);
        let file = damage::mostly_whole(random, &described);
        let interval = any_interval(random, &described);
        let starts = any_starts(random, &described, interval);
        let plain = verifier::verify(&file, interval, &starts);
        tally.result("answered", &plain);
        let case = || format!("{starts:?} at {interval} of {:?}", file::read(&file));
        if let (Ok(verdict), Ok(code)) = (&plain, &file::read(&file)) {
            count(&mut tally, verdict);
            let legal = definitions::is_legal(code, interval, &starts);
            assert_eq!(*verdict == Verdict::Legal, legal, "{}", case());
            if let Verdict::Conflict {
                first,
                second,
                place,
            } = *verdict
            {
                let met = definitions::place(code, interval, &starts, first, second);
                assert_eq!(met, Some(place), "{}", case());
            }
        }
        assert_eq!(
            mwelitunga::verify(&file, interval, &starts),
            plain.map(safe::verdict).map_err(safe::refusal),
            "{}",
            case()
        );
        let told = expected(&plain, numbers);
        assert_eq!(
            lent::verify(random, &file, interval, &starts),
            told,
            "{}",
            case()
        );
    });
    tally.print();
    for what in ["legal", "broken", "conflict", "conflict with itself"] {
        tally.at_least(500, what);
    }
    tally.at_least(200, "conflict in a later cycle");
    tally.refusals_at_least(100, &[1, 2, 3, 4, 5, 6, 7, 15, 20]);
}
