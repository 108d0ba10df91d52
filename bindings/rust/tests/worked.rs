//! The worked examples of the rules, by number, and the listings of the example files, through the safe functions; where it is
//! about lent memory, through a raw one.

use mwelitunga::sys::{mw_session, FreeRows};
use mwelitunga::{
    bounds, plan, read, replay, search, verify, Bounds, Call, Counts, Place, Refusal, Reply,
    Request, Verdict,
};
use plain::file::{Dependence, Loop, Operation, Use};
use plain::writer::write;

/// An operation: its latency, and its uses by slot and duration.
type Op<'a> = (u8, &'a [(u8, u8)]);

/// A dependence: from, to, delay, distance.
type Dep = (usize, usize, i32, i32);

/// The file of a loop.
fn file(operations: &[Op], dependences: &[Dep]) -> Vec<u8> {
    let uses = |uses: &[(u8, u8)]| {
        uses.iter()
            .map(|&(slot, duration)| Use { slot, duration })
            .collect()
    };
    write(&Loop {
        operations: operations
            .iter()
            .map(|&(latency, list)| Operation {
                latency,
                uses: uses(list),
            })
            .collect(),
        dependences: dependences
            .iter()
            .map(|&(from, to, delay, distance)| Dependence {
                from,
                to,
                delay,
                distance,
            })
            .collect(),
    })
}

fn loop_a() -> Vec<u8> {
    file(
        &[(2, &[(1, 1)]), (3, &[(2, 2)]), (1, &[(1, 1)])],
        &[(0, 1, 2, 0), (1, 2, 3, 0), (1, 1, 3, 1)],
    )
}

fn loop_b() -> Vec<u8> {
    file(
        &[(1, &[(1, 1)]), (1, &[(1, 1)])],
        &[(0, 1, 3, 0), (1, 0, -3, 0)],
    )
}

fn loop_b2() -> Vec<u8> {
    file(
        &[(1, &[(1, 1)]), (1, &[(1, 1)]), (1, &[(3, 3)])],
        &[(0, 1, 3, 0), (1, 0, -3, 0)],
    )
}

fn loop_c() -> Vec<u8> {
    file(&[(1, &[(1, 1)]), (1, &[(2, 1)])], &[(1, 0, 2, 0)])
}

/// A loop of operations without uses.
fn only_dependences(operations: usize, dependences: &[Dep]) -> Vec<u8> {
    file(&vec![(1, &[][..]); operations], dependences)
}

/// The request of the worked examples for loop B2.
fn short(cap: usize, horizon: usize) -> Request {
    Request {
        cap,
        horizon,
        ..Request::default()
    }
}

/// Number, detail and probes of a search that is refused.
fn refused(file: &[u8], request: Request) -> (usize, u64, Option<usize>) {
    let error = search(file, request).unwrap_err();
    (error.refusal.number, error.refusal.detail, error.probes)
}

/// The two operations of a conflict, and the number of its place.
fn conflict(file: &[u8], interval: usize, starts: &[u16]) -> (usize, usize, u64) {
    match verify(file, interval, starts).unwrap() {
        Verdict::Conflict {
            first,
            second,
            place,
        } => (first, second, place.number()),
        verdict => panic!("{verdict}"),
    }
}

fn recurrence(file: &[u8]) -> usize {
    bounds(file).unwrap().recurrence
}

#[test]
fn loop_a_is_the_example_file() {
    let made = loop_a();
    assert_eq!(made.len(), 50);
    assert_eq!(made, example("a.loop"));
    assert_eq!(loop_b2(), example("b2.loop"));
    assert_eq!(loop_c(), example("c.loop"));
    let counts = Counts {
        operations: 3,
        uses: 3,
        dependences: 3,
    };
    assert_eq!(read(&made), Ok(counts));
}

/// The bytes of loop A, as `docs/FORMAT.md` has them.
#[test]
fn loop_a_is_written_byte_by_byte() {
    let operation = |latency, slot, duration| mwelitunga::Operation {
        latency,
        uses: vec![mwelitunga::Use { slot, duration }],
    };
    let dependence = |from, to, delay, distance| mwelitunga::Dependence {
        from,
        to,
        delay,
        distance,
    };
    let described = mwelitunga::Loop {
        operations: vec![operation(2, 1, 1), operation(3, 2, 2), operation(1, 1, 1)],
        dependences: vec![
            dependence(0, 1, 2, 0),
            dependence(1, 2, 3, 0),
            dependence(1, 1, 3, 1),
        ],
    };
    let bytes = [
        1, 3, 79, 80, 69, 82, 26, 0, 6, 0, 85, 83, 69, 83, 32, 0, 6, 0, 68, 69, 80, 83, 38, 0, 12,
        0, 2, 1, 3, 1, 1, 1, 1, 1, 2, 2, 1, 1, 0, 1, 2, 0, 1, 2, 3, 0, 1, 1, 3, 1,
    ];
    assert_eq!(bytes.len(), 50);
    assert_eq!(described.to_file().as_deref(), Ok(&bytes[..]));
    assert_eq!(mwelitunga::Loop::from_file(&bytes), Ok(described));
}

/// What the writer answers for the operations of loop A, its first two uses and its first dependence, each with some numbers
/// after them, in a buffer of some bytes.
fn written(more: [&[i32]; 3], room: usize) -> Result<usize, (usize, u64)> {
    let [ops, uses, deps] = more;
    let mut buffer = vec![0; room];
    let written = mwelitunga::write(
        &[&[2, 1, 3, 1, 1, 1], ops].concat(),
        &[&[1, 1, 2, 2], uses].concat(),
        &[&[0, 1, 2, 0], deps].concat(),
        &mut buffer,
    );
    written.map_err(|error| (error.refusal.number, error.refusal.detail))
}

/// Loop A, and each refusal with others that would come later.
#[test]
fn what_the_writer_answers() {
    let rest: [&[i32]; 3] = [&[], &[1, 1], &[1, 2, 3, 0, 1, 1, 3, 1]];
    assert_eq!(written(rest, 50), Ok(50));
    assert_eq!(written(rest, 49), Err((20, 49)));
    assert_eq!(written([&[65], &[], &[1]], 0), Err((3, 2)));
    assert_eq!(written([&[65, 0], &[], &[1]], 0), Err((3, 18)));
    assert_eq!(written([&[65, 0], &[], &[]], 0), Err((4, 3)));
    assert_eq!(written([&[64, -1], &[], &[]], 0), Err((4, 3)));
    assert_eq!(written([&[], &[], &[]], 0), Err((5, 2)));
    assert_eq!(written([&[], &[0, 1, 1], &[]], 0), Err((5, 3)));
    let falls: [&[i32]; 3] = [&[0, 2], &[1, 1, 4, 1, 4, 1], &[4, 0, 0, 0]];
    assert_eq!(written(falls, 0), Err((5, 4)));
    assert_eq!(written([&[], &[1, 17], &[3, 0, 0, 0]], 0), Err((5, 2)));
    assert_eq!(written([&[], &[1, 1], &[0, 3, 0, 0]], 0), Err((6, 1)));
    assert_eq!(written([&[], &[1, 1], &[0, 2, -65, 0]], 0), Err((6, 1)));
    assert_eq!(written([&[], &[1, 1], &[0, 2, -64, 16]], 0), Err((6, 1)));
    let none = Refusal {
        number: 3,
        detail: 2,
    };
    let error = mwelitunga::write(&[], &[], &[1], &mut []).unwrap_err();
    assert_eq!(error.refusal, none);
}

#[test]
fn case_1_bounds() {
    let expected = Bounds {
        resource: 2,
        recurrence: 3,
    };
    assert_eq!(bounds(&loop_a()), Ok(expected));
}

#[test]
fn case_2_verdicts() {
    let file = loop_a();
    assert_eq!(verify(&file, 3, &[0, 2, 5]), Ok(Verdict::Legal));
    let broken = Verdict::Broken { dependence: 1 };
    assert_eq!(verify(&file, 3, &[0, 2, 4]), Ok(broken));
}

#[test]
fn case_3_a_longer_interval_may_not_do() {
    let file = loop_b();
    assert_eq!(verify(&file, 2, &[0, 3]), Ok(Verdict::Legal));
    let conflict = Verdict::Conflict {
        first: 0,
        second: 1,
        place: Place { cycle: 0, slot: 1 },
    };
    assert_eq!(verify(&file, 3, &[0, 3]), Ok(conflict));
    assert_eq!(verify(&file, 4, &[0, 3]), Ok(Verdict::Legal));
}

#[test]
fn case_4_probes_over_two_intervals() {
    let schedule = search(&loop_b2(), short(4, 8)).unwrap();
    assert_eq!(schedule.interval, 4);
    assert_eq!(schedule.starts, [0, 3, 0]);
    assert_eq!(schedule.stages, 1);
    assert_eq!(schedule.probes, 72 + 6);
}

#[test]
fn case_5_budgets_and_caps() {
    let file = loop_b2();
    let with_budget = |budget| Request {
        budget,
        ..short(4, 8)
    };
    assert_eq!(search(&file, with_budget(78)).unwrap().probes, 78);
    assert_eq!(refused(&file, with_budget(77)), (11, 4, Some(77)));
    assert_eq!(refused(&file, with_budget(72)), (11, 4, Some(72)));
    assert_eq!(refused(&file, with_budget(71)), (11, 3, Some(71)));
    assert_eq!(refused(&file, short(3, 8)), (10, 3, Some(72)));
    assert_eq!(refused(&file, short(2, 8)), (10, 2, Some(0)));
    let (number, detail, _) = refused(&file, short(4, 3));
    assert_eq!((number, detail), (10, 4));
}

#[test]
fn case_6_an_operation_before_one_of_a_smaller_number() {
    let schedule = search(&loop_c(), short(4096, 8)).unwrap();
    assert_eq!(schedule.interval, 1);
    assert_eq!(schedule.starts, [2, 0]);
    assert_eq!(schedule.stages, 3);
    assert_eq!(schedule.probes, 20);
}

#[test]
fn case_7_circles_within_an_iteration() {
    let circle = only_dependences(2, &[(0, 1, 1, 0), (1, 0, 0, 0)]);
    let refusal = Refusal {
        number: 8,
        detail: 0,
    };
    assert_eq!(bounds(&circle), Err(refusal));
    assert_eq!(refused(&circle, Request::default()), (8, 0, None));
    let held = only_dependences(2, &[(0, 1, 1, 0), (1, 0, -1, 0)]);
    assert_eq!(recurrence(&held), 1);
}

#[test]
fn case_8_a_dependence_that_asks_for_nothing() {
    assert_eq!(recurrence(&only_dependences(1, &[(0, 0, 0, 0)])), 1);
}

#[test]
fn case_9_quotients_are_rounded_up() {
    for (delay, bound) in [(7, 4), (8, 4), (9, 5)] {
        let alone = only_dependences(1, &[(0, 0, delay, 2)]);
        assert_eq!(recurrence(&alone), bound);
        let in_two_steps = only_dependences(2, &[(0, 1, delay - 3, 1), (1, 0, 3, 1)]);
        assert_eq!(recurrence(&in_two_steps), bound);
    }
}

#[test]
fn case_10_an_operation_longer_than_the_interval() {
    let file = file(&[(1, &[(1, 4)])], &[]);
    let conflict = Verdict::Conflict {
        first: 0,
        second: 0,
        place: Place { cycle: 3, slot: 1 },
    };
    assert_eq!(verify(&file, 3, &[0]), Ok(conflict));
    assert_eq!(verify(&file, 4, &[0]), Ok(Verdict::Legal));
}

#[test]
fn case_11_rows_of_a_session() {
    let mut calls = vec![
        Call::Place { op: 0, start: 0 },
        Call::Place { op: 1, start: 2 },
    ];
    let placed = replay(&loop_a(), 3, 256, &calls).unwrap();
    assert_eq!(placed.replies, [Ok(Reply::Done); 2]);
    assert_eq!(placed.starts, [Some(0), Some(2), None]);
    assert_eq!(placed.rows, [3, 0, 2]);
    calls.push(Call::Remove { op: 0 });
    let removed = replay(&loop_a(), 3, 256, &calls).unwrap();
    assert_eq!(removed.replies, [Ok(Reply::Done); 3]);
    assert_eq!(removed.starts, [None, Some(2), None]);
    assert_eq!(removed.rows, [2, 0, 2]);
}

#[test]
fn case_12_force_and_rollback() {
    let mut calls = vec![
        Call::Place { op: 0, start: 0 },
        Call::Checkpoint,
        Call::Force { op: 2, start: 3 },
    ];
    let forced = replay(&loop_a(), 3, 256, &calls).unwrap();
    let replies = [
        Ok(Reply::Done),
        Ok(Reply::Checkpoint(1)),
        Ok(Reply::Displaced(1)),
    ];
    assert_eq!(forced.replies, replies);
    assert_eq!(forced.starts, [None, None, Some(3)]);
    assert_eq!(forced.rows[0], 1);
    calls.push(Call::Rollback { checkpoint: 1 });
    let back = replay(&loop_a(), 3, 256, &calls).unwrap();
    assert_eq!(back.replies[3], Ok(Reply::Done));
    assert_eq!(back.starts, [Some(0), None, None]);
    assert_eq!(back.rows, [1, 0, 0]);
    assert_eq!(back.checkpoints, 1);
}

#[test]
fn case_13_the_largest_recurrence_bound() {
    let ring: Vec<Dep> = (0..64)
        .map(|op| (op, (op + 1) % 64, 64, i32::from(op == 63)))
        .collect();
    assert_eq!(recurrence(&only_dependences(64, &ring)), 4096);
}

/// Loop C with other latencies of operation 0, which starts at 2: at interval 1 each cycle is a stage.
#[test]
fn the_last_stage_has_an_occupied_cycle() {
    let stages = |latency| {
        let file = file(&[(latency, &[(1, 1)]), (1, &[(2, 1)])], &[(1, 0, 2, 0)]);
        search(&file, short(4096, 8)).unwrap().stages
    };
    assert_eq!([0, 1, 2, 64].map(stages), [3, 3, 4, 66]);
    assert_eq!(search(&loop_a(), Request::default()).unwrap().stages, 2);
}

#[test]
fn a_place_has_a_number() {
    for (number, cycle, slot) in [
        (1, 0, 1),
        (24, 0, 24),
        (35, 1, 3),
        (97, 3, 1),
        (504, 15, 24),
    ] {
        let place = Place { cycle, slot };
        assert_eq!(Place::of(number), place);
        assert_eq!(place.number(), number);
    }
}

/// The cycle is that of the second operation, wherever it starts, and of two slots the lower one is told.
#[test]
fn a_verdict_says_where() {
    assert_eq!(conflict(&loop_b(), 3, &[0, 3]), (0, 1, 1));
    let two = file(
        &[(1, &[(2, 2), (3, 1)]), (1, &[(1, 4), (2, 3), (3, 3)])],
        &[],
    );
    // Operation 0 is in row 2 with slots 2 and 3, which is cycle 2 of operation 1.
    assert_eq!(conflict(&two, 8, &[2, 0]), (0, 1, 2 * 32 + 2));
    // In row 7, and operation 1 from row 5 on.
    assert_eq!(conflict(&two, 8, &[7, 5]), (0, 1, 2 * 32 + 2));
    // Operation 1 begins in row 3: there operation 0 has its second cycle in slot 2, and slot 3 no longer.
    assert_eq!(conflict(&two, 8, &[2, 3]), (0, 1, 2));
    // At an interval of 2 operation 1 conflicts with itself too. With operation 0 it does before.
    assert_eq!(conflict(&two, 2, &[1, 0]), (0, 1, 2));
    let four = file(&[(1, &[(1, 4)])], &[]);
    assert_eq!(conflict(&four, 3, &[0]), (0, 0, 97));
    assert_eq!(conflict(&four, 3, &[2]), (0, 0, 97));
    assert_eq!(conflict(&four, 1, &[2]), (0, 0, 33));
    // The last place that there is: slot 24 in cycle 15.
    let last = file(&[(1, &[(24, 1)]), (1, &[(24, 16)])], &[]);
    assert_eq!(conflict(&last, 16, &[15, 0]), (0, 1, 504));
    assert_eq!(conflict(&last, 16, &[15, 15]), (0, 1, 24));
}

/// What place and force are refused for, at an interval of 3.
#[test]
fn a_refused_call_says_where() {
    let file = file(
        &[
            (1, &[(1, 1)]),
            (1, &[(1, 3)]),
            (1, &[(1, 1), (2, 4)]),
            (1, &[(2, 1)]),
        ],
        &[],
    );
    let refused = |op: usize, start: usize, place: bool| {
        let mut calls = vec![
            Call::Place { op: 0, start: 0 }, // slot 1, row 0
            Call::Place { op: 3, start: 5 }, // slot 2, row 2
        ];
        calls.push(match place {
            true => Call::Place { op, start },
            false => Call::Force { op, start },
        });
        let refusal = replay(&file, 3, 256, &calls).unwrap().replies[2].unwrap_err();
        assert_eq!(refusal.number, 17);
        assert_eq!(refusal.place(), Some(Place::of(refusal.detail)));
        refusal.detail
    };
    // Operation 1 comes to row 0 in cycle 2, where it starts in row 1; in cycle 0, where it starts there.
    assert_eq!(refused(1, 1, true), 2 * 32 + 1);
    assert_eq!(refused(1, 4, true), 2 * 32 + 1);
    assert_eq!(refused(1, 3, true), 1);
    // Operation 2 meets operation 0 in slot 1 at once, operation 3 in slot 2 in row 2.
    assert_eq!(refused(2, 0, true), 1);
    assert_eq!(refused(2, 1, true), 32 + 2);
    assert_eq!(refused(2, 2, true), 2);
    // Forced, it meets only itself, wherever it starts.
    for start in 0..6 {
        assert_eq!(refused(2, start, false), 3 * 32 + 2);
    }
    // In an empty table it meets only itself, too.
    let alone = [Call::Place { op: 2, start: 0 }];
    let reply = replay(&file, 3, 256, &alone).unwrap().replies[0];
    let refusal = Refusal {
        number: 17,
        detail: 98,
    };
    assert_eq!(reply, Err(refusal));
    assert_eq!(refusal.place(), Some(Place { cycle: 3, slot: 2 }));
}

/// The free rows of all slots at an interval, where some slots have these and the others the whole interval.
fn free_but(interval: u16, slots: &[(usize, u16)]) -> FreeRows {
    let mut free_rows = [interval; 24];
    for &(slot, number) in slots {
        free_rows[slot - 1] = number;
    }
    free_rows
}

#[test]
fn an_open_session_has_all_rows_free() {
    for interval in [1, 3, 4096] {
        let opened = replay(&loop_a(), interval.into(), 256, &[]).unwrap();
        assert_eq!(opened.free_rows, [interval; 24]);
    }
}

#[test]
fn free_rows_of_loop_a() {
    let free_rows = |calls: &[Call]| replay(&loop_a(), 3, 256, calls).unwrap().free_rows;
    let mut calls = vec![
        Call::Place { op: 0, start: 0 },
        Call::Place { op: 1, start: 2 },
    ];
    assert_eq!(free_rows(&calls), free_but(3, &[(1, 2), (2, 1)]));
    calls.push(Call::Remove { op: 0 });
    assert_eq!(free_rows(&calls), free_but(3, &[(2, 1)]));
    calls.push(Call::Remove { op: 1 });
    assert_eq!(free_rows(&calls), [3; 24]);
}

/// A loop for an interval of 5: operation 2 uses nothing, and operation 4 conflicts with itself.
fn loop_of_holders() -> Vec<u8> {
    file(
        &[
            (1, &[(1, 3), (24, 1)]),
            (1, &[(1, 3), (2, 5)]),
            (1, &[]),
            (1, &[(1, 2)]),
            (1, &[(3, 6)]),
        ],
        &[(0, 3, 0, 0)],
    )
}

/// A call, its answer, and the free rows of the slots that do not have all rows free after it.
type Step<'a> = (Call, Result<Reply, Refusal>, &'a [(usize, u16)]);

#[test]
fn free_rows_after_each_call() {
    let place = |op, start| Call::Place { op, start };
    let force = |op, start| Call::Force { op, start };
    let remove = |op| Call::Remove { op };
    let back = |checkpoint| Call::Rollback { checkpoint };
    let done = Ok(Reply::Done);
    let displaced = |mask| Ok(Reply::Displaced(mask));
    let opened = |checkpoint| Ok(Reply::Checkpoint(checkpoint));
    let refused = |number, detail| Err(Refusal { number, detail });
    // With operation 0, wherever it starts; with operation 1; with 0 and 3.
    let with_0 = &[(1, 5 - 3), (24, 5 - 1)];
    let with_1 = &[(1, 5 - 3), (2, 5 - 5)];
    let with_0_3 = &[(1, 5 - 3 - 2), (24, 5 - 1)];
    let steps: [Step; 21] = [
        (place(0, 4), done, with_0), // slot 1 in rows 4, 0 and 1
        (place(2, 0), done, with_0),
        (Call::Checkpoint, opened(1), with_0),
        (place(1, 1), refused(17, 1), with_0),
        (force(1, 1), displaced(0b0001), with_1),
        (place(0, 0), refused(17, 32 + 1), with_1),
        (place(5, 0), refused(12, 5), with_1),
        (place(1, 1), refused(13, 1), with_1),
        (place(3, 256), refused(15, 3), with_1),
        (force(4, 0), refused(17, 5 * 32 + 3), with_1),
        (remove(0), refused(14, 0), with_1),
        (remove(1), done, &[]),
        (place(0, 1), done, with_0), // slot 1 in rows 1, 2 and 3
        (place(3, 0), refused(16, 0), with_0),
        (place(3, 4), done, with_0_3), // and in rows 4 and 0
        (Call::Checkpoint, opened(2), with_0_3),
        (force(1, 9), displaced(0b1001), with_1),
        (back(2), done, with_0_3),
        (back(1), done, with_0), // operation 0 moves back to 4
        (back(2), refused(19, 0), with_0),
        (Call::Release, done, with_0),
    ];
    let calls = steps.map(|(call, _, _)| call);
    for (number, (call, reply, slots)) in steps.into_iter().enumerate() {
        let made = replay(&loop_of_holders(), 5, 256, &calls[..=number]).unwrap();
        assert_eq!(made.replies[number], reply, "{call}");
        assert_eq!(made.free_rows, free_but(5, slots), "{call}");
    }
}

/// The result of a session that is lent three rows and makes one call, of a kind, about operation 1; and what it leaves of an
/// array of other numbers that is lent for the free rows.
fn lent_free_rows(file: &[u8], interval: usize, kind: u64) -> (usize, FreeRows) {
    let calls = [kind, 1, 2];
    let (mut rows, mut replies) = ([0; 3], [0; 2]);
    let (mut starts, mut free_rows, mut answer) = ([0; 64], [12345; 24], [0; 8]);
    // SAFETY: the arrays are valid for their lengths, and none overlaps another.
    let result = unsafe {
        mw_session(
            file.as_ptr(),
            file.len(),
            interval,
            256,
            calls.as_ptr(),
            calls.len(),
            rows.as_mut_ptr(),
            rows.len(),
            replies.as_mut_ptr(),
            replies.len(),
            &mut starts,
            &mut free_rows,
            &mut answer,
        )
    };
    (result, free_rows)
}

#[test]
fn a_refused_session_leaves_the_free_rows_as_they_were() {
    let file = loop_a();
    let as_they_were = [12345; 24];
    assert_eq!(lent_free_rows(&file, 3, 1), (0, free_but(3, &[(2, 1)])));
    assert_eq!(lent_free_rows(&file, 3, 7), (255, as_they_were));
    assert_eq!(lent_free_rows(&file[..49], 3, 1), (3, as_they_were));
    assert_eq!(lent_free_rows(&file, 0, 1), (7, as_they_were));
    assert_eq!(lent_free_rows(&file, 4, 1), (20, as_they_were));
    // Where only a call is refused, here to remove what is not placed, the session is not.
    assert_eq!(lent_free_rows(&file, 3, 3), (0, [3; 24]));
}

/// Interval and starts of a plan, whose starts are legal, and whether it is said to be smallest.
fn planned(file: &[u8], request: Request) -> (usize, Vec<u16>, bool) {
    let plan = plan(file, request).unwrap();
    let verdict = verify(file, plan.interval, &plan.starts);
    assert_eq!(verdict, Ok(Verdict::Legal));
    (plan.interval, plan.starts, plan.smallest)
}

#[test]
fn plans_at_the_bound_need_no_search() {
    let one_probe = Request {
        budget: 1,
        ..Request::default()
    };
    assert_eq!(planned(&loop_a(), one_probe), (3, vec![0, 2, 5], true));
    assert_eq!(planned(&loop_b(), one_probe), (2, vec![0, 3], true));
    assert_eq!(planned(&loop_c(), one_probe), (1, vec![2, 0], true));
    assert_eq!(
        plan(&loop_a(), one_probe).unwrap().to_string(),
        "interval 3 resource 2 recurrence 3 stages 2 smallest\n\
         op 0 start 0 stage 0 cycle 0 order 0\n\
         op 1 start 2 stage 0 cycle 2 order 1\n\
         op 2 start 5 stage 1 cycle 2 order 0"
    );
}

/// Interval 3, the bound of loop B2, has no schedule, and it takes the search 72 probes to say so.
#[test]
fn plans_above_the_bound_are_smallest_where_the_search_ends() {
    let file = loop_b2();
    let with_budget = |budget| Request {
        budget,
        ..short(4, 8)
    };
    assert_eq!(planned(&file, with_budget(72)), (4, vec![0, 3, 0], true));
    assert_eq!(planned(&file, with_budget(71)), (4, vec![0, 3, 0], false));
    let legal = plan(&file, with_budget(71)).unwrap().to_string();
    assert!(legal.starts_with("interval 4 resource 3 recurrence 1 stages 1 legal\nop 0 start 0 "));
    for request in [short(3, 8), short(2, 8), short(4, 3)] {
        assert_eq!(
            plan(&file, request),
            Err(search(&file, request).unwrap_err())
        );
    }
}

#[test]
fn an_empty_file_is_refused() {
    assert_eq!(refused(&[], Request::default()), (1, 0, None));
}

/// The bytes of an example file.
fn example(name: &str) -> Vec<u8> {
    std::fs::read(examples().join(name)).unwrap()
}

fn examples() -> std::path::PathBuf {
    std::path::Path::new(env!("CARGO_MANIFEST_DIR")).join("../../examples")
}

/// The listing of an example: the last block below its heading.
fn listing(page: &str, name: &str) -> String {
    let heading = format!("## `{name}`\n");
    let (_, below) = page
        .split_once(&heading)
        .expect("the example has a heading");
    let below = below
        .split("\n## ")
        .next()
        .expect("a text has a first part");
    let block = below.rsplit("```").nth(1).expect("there is a listing");
    block.trim().to_string()
}

#[test]
fn listings_of_the_example_files() {
    let page = std::fs::read_to_string(examples().join("README.md")).unwrap();
    let mut number = 0;
    for entry in std::fs::read_dir(examples()).unwrap() {
        let name = entry.unwrap().file_name().into_string().unwrap();
        if name.ends_with(".loop") {
            let schedule = search(&example(&name), Request::default()).unwrap();
            assert_eq!(schedule.to_string(), listing(&page, &name), "{name}");
            number += 1;
        }
    }
    assert!(number >= 7, "{number} example files");
}
