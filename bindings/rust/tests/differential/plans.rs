//! The plan, held to the search: a refusal is the search's own, a list of starts is legal, and its interval is never larger.

use crate::lent::Told;
use crate::random::{self, damage, loops, Random};
use crate::safe;
use crate::searches::{any_request, told, Memory, ROWS};
use crate::tally::Tally;
use mwelitunga::{bounds, plan, search, sys, verify, Bounds, Plan, Verdict};
use plain::file::{read, Loop};
use plain::places::stages;
use plain::search::{self as plain_search, Found, NotFound, Request};
use plain::writer::write;

/// What the C function told of a plan, with the starts that it wrote.
fn told_plan((_, answer): Told, starts: &[u16]) -> Plan {
    let number = |i: usize| answer[i] as usize;
    assert_eq!((answer[0], answer[6], answer[7]), (0, 0, 0));
    assert!(answer[5] <= 1);
    Plan {
        interval: number(1),
        bounds: Bounds {
            resource: number(2),
            recurrence: number(3),
        },
        stages: number(4),
        smallest: answer[5] == 1,
        starts: starts.to_vec(),
    }
}

/// The list is legal and in range, and the bounds and the number of stages belong to it.
fn compare_rules(file: &[u8], request: Request, plan: &Plan, case: &str) {
    let legal = verify(file, plan.interval, &plan.starts);
    assert_eq!(legal, Ok(Verdict::Legal), "{case}");
    let (interval, least) = (plan.interval, plan.bounds.larger());
    assert!((least..=request.cap).contains(&interval), "{case}");
    assert_eq!(bounds(file), Ok(plan.bounds), "{case}");
    let below = |&start: &u16| usize::from(start) < request.horizon;
    assert!(plan.starts.iter().all(below), "{case}");
    let code = read(file).expect("a file that was planned is a loop file");
    assert_eq!(plan.stages, stages(&code, interval, &plan.starts), "{case}");
}

/// The interval is that of the search, where that finds one; where it ran out of probes, it is searched again with more.
fn compare_search(
    file: &[u8],
    request: Request,
    plan: &Plan,
    plain: &Result<Found, NotFound>,
    case: &str,
    tally: &mut Tally,
) {
    match plain {
        Ok(found) => {
            assert_eq!(
                (plan.interval, plan.smallest),
                (found.interval, true),
                "{case}"
            );
        }
        Err(none) => {
            assert_eq!(none.refusal.number, 11, "{case}");
            tally.count("planned where the search ran out of probes");
            let more = mwelitunga::Request {
                budget: 50_000,
                ..safe::request(request)
            };
            if let Ok(schedule) = search(file, more) {
                assert!(schedule.interval <= plan.interval, "{case}");
                assert!(
                    !plan.smallest || schedule.interval == plan.interval,
                    "{case}"
                );
                tally.count("compared with a longer search");
            }
        }
    }
}

fn count(tally: &mut Tally, plan: &Plan) {
    if plan.interval > plan.bounds.larger() {
        tally.count("planned above the bounds");
    }
    if !plan.smallest {
        tally.count("planned and not said to be smallest");
    }
    if plan.starts.len() > 8 {
        tally.count("planned for more than 8 operations");
    }
}

/// Plans once in each way, and compares answers and memory with the search's.
fn compare(
    random: &mut Random,
    described: &Loop,
    file: &[u8],
    request: Request,
    tally: &mut Tally,
) {
    let mut memory = Memory::new(random, described.operations.len());
    let (mut left, mut searched) = (memory.clone(), memory.clone());
    let (list, table) = (memory.starts.part().len(), memory.rows.part().len());
    let case = format!("{request:?}, list {list}, table {table}, {described:?}");
    let plain = plain_search::search(file, request, searched.starts.part(), searched.rows.part());

    let asked = safe::request(request);
    let raw = memory.schedule(sys::mw_plan, random, file, asked);
    if raw.0 != 0 {
        assert_eq!(raw, told(&plain), "{case}");
        assert!(memory == searched, "other memory is left: {case}");
        let none = plain.expect_err("a refusal was told");
        tally.result::<()>("planned", &Err(none.refusal));
        // The simple function lends enough always.
        if none.refusal.number != 20 {
            assert_eq!(plan(file, asked), Err(safe::not_found(none)), "{case}");
        }
        return;
    }
    let operations = read(file).expect("it was planned").operations.len();
    let planned = told_plan(raw, &memory.starts.part()[..operations]);
    left.starts.write(&planned.starts);
    left.rows.write(&[0; ROWS]);
    assert!(memory == left, "other memory is left: {case}");
    assert_eq!(plan(file, asked).as_ref(), Ok(&planned), "{case}");
    compare_rules(file, request, &planned, &case);
    tally.count("planned");
    count(tally, &planned);
    compare_search(file, request, &planned, &plain, &case, tally);
}

#[test]
fn plans() {
    let mut tally = Tally::new("plan");
    random::cases("plans", 30_000, |random| {
        let described = if random.once_in(4) {
            loops::tied(random)
        } else {
            loops::small(random)
        };
        let file = damage::mostly_whole(random, &described);
        let request = any_request(random);
        compare(random, &described, &file, request, &mut tally);
    });
    tally.print();
    tally.at_least(3000, "planned");
    tally.at_least(100, "planned above the bounds");
    tally.at_least(100, "planned where the search ran out of probes");
    tally.at_least(100, "compared with a longer search");
    tally.refusals_at_least(50, &[1, 2, 3, 4, 5, 6]);
    tally.refusals_at_least(100, &[7, 8, 10, 11, 20]);
}

/// Plans of loops of up to 64 operations.
#[test]
fn large_plans() {
    let mut tally = Tally::new("large");
    random::cases("large plans", 2000, |random| {
        let described = loops::large(random);
        let request = Request {
            cap: random.one_of(&[64, 4096]),
            horizon: random.one_of(&[16, 64, 256, 4096]),
            budget: random.one_of(&[1000, 5000]),
        };
        let file = write(&described);
        compare(random, &described, &file, request, &mut tally);
    });
    tally.print();
    tally.at_least(100, "planned");
    tally.at_least(30, "planned for more than 8 operations");
    tally.at_least(10, "planned and not said to be smallest");
}
