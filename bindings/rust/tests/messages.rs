//! What a refusal says, one line for each number, and what a verdict, a call and a loop without a file say.

use mwelitunga::{
    search, write, Call, Dependence, Kind, Loop, Operation, Place, Refusal, Request, Use, Verdict,
};

/// The message of a number and a detail.
fn message(number: usize, detail: u64) -> String {
    Refusal { number, detail }.to_string()
}

#[test]
fn every_number_has_its_own_line() {
    let numbers: Vec<usize> = (1..=20).chain([254, 255]).collect();
    let lines: Vec<String> = numbers.iter().map(|&n| message(n, 3)).collect();
    for (i, line) in lines.iter().enumerate() {
        assert!(!line.contains('\n') && !line.contains("unknown"), "{line}");
        let ending = format!(" (refused {} at 3)", numbers[i]);
        assert!(line.ends_with(&ending), "{line}");
        assert_eq!(lines.iter().filter(|other| *other == line).count(), 1);
    }
}

#[test]
fn kinds_and_numbers_belong_together() {
    for number in 0..=300 {
        let known = (1..=20).contains(&number) || number == 254 || number == 255;
        assert_eq!(Kind::of(number).is_some(), known, "{number}");
        assert!(Kind::of(number).is_none_or(|kind| kind.number() == number));
    }
    assert_eq!(Kind::of(usize::MAX), None);
}

#[test]
fn some_messages() {
    let lines = [
        (
            message(1, 12),
            "the file has 12 bytes, not 26 to 1690 (refused 1 at 12)",
        ),
        (
            message(1, 1691),
            "the file has more than 1690 bytes (refused 1 at 1691)",
        ),
        (
            message(2, 0),
            "the file is not of version 1 (refused 2 at 0)",
        ),
        (
            message(2, 1),
            "the file does not have 3 sections (refused 2 at 1)",
        ),
        (
            message(7, 1),
            "the cap or the interval is out of range (refused 7 at 1)",
        ),
        (
            message(7, 2),
            "the horizon is out of range (refused 7 at 2)",
        ),
        (message(7, 3), "the budget is out of range (refused 7 at 3)"),
        (
            message(13, 5),
            "operation 5 is placed already (refused 13 at 5)",
        ),
        (
            message(17, 35),
            "the operation conflicts with itself or with a placed one, in its cycle 1, slot 3 (refused 17 at 35)",
        ),
        (message(99, 5), "unknown refusal (refused 99 at 5)"),
    ];
    for (made, expected) in lines {
        assert_eq!(made, expected);
    }
}

#[test]
fn only_a_conflict_has_a_place() {
    for number in (0..=20).chain([254, 255, 256]) {
        let refusal = Refusal { number, detail: 97 };
        let place = Place { cycle: 3, slot: 1 };
        assert_eq!(refusal.place(), (number == 17).then_some(place), "{number}");
    }
}

#[test]
fn every_verdict() {
    let conflict = |first, second| Verdict::Conflict {
        first,
        second,
        place: Place::of(97),
    };
    let lines = [
        (Verdict::Legal, "legal"),
        (Verdict::Broken { dependence: 4 }, "dependence 4 is broken"),
        (
            conflict(0, 2),
            "operations 0 and 2 conflict, in cycle 3 of operation 2, slot 1",
        ),
        (
            conflict(2, 2),
            "operation 2 conflicts with itself, in its cycle 3, slot 1",
        ),
    ];
    for (verdict, expected) in lines {
        assert_eq!(verdict.to_string(), expected);
    }
}

#[test]
fn every_call() {
    let lines = [
        (Call::Place { op: 1, start: 2 }, "place operation 1 at 2"),
        (Call::Force { op: 1, start: 2 }, "force operation 1 to 2"),
        (Call::Remove { op: 63 }, "remove operation 63"),
        (Call::Checkpoint, "open a checkpoint"),
        (Call::Release, "release the newest checkpoint"),
        (
            Call::Rollback { checkpoint: 3 },
            "roll back to checkpoint 3",
        ),
    ];
    for (call, expected) in lines {
        assert_eq!(call.to_string(), expected);
    }
}

/// Three operations with two uses each, and as many dependences.
fn right() -> Loop {
    let uses = [2, 3].map(|slot| Use { slot, duration: 1 });
    let operation = Operation {
        latency: 1,
        uses: uses.to_vec(),
    };
    Loop {
        operations: vec![operation; 3],
        dependences: vec![Dependence::default(); 3],
    }
}

/// What the error says of a loop with one change.
fn unwritten(change: impl FnOnce(&mut Loop)) -> String {
    let mut described = right();
    change(&mut described);
    let error = described.to_file().unwrap_err();
    assert_eq!(Refusal::from(error), error.refusal);
    error.to_string()
}

#[test]
fn a_loop_without_a_file_says_which_number_of_records_is_wrong() {
    let lines = [
        (
            unwritten(|l| l.operations.clear()),
            "the loop has 0 operations, not 1 to 64 (refused 3 at 2)",
        ),
        (
            unwritten(|l| l.operations.resize(65, Operation::default())),
            "the loop has 65 operations, not 1 to 64 (refused 3 at 2)",
        ),
        (
            unwritten(|l| l.dependences.resize(257, Dependence::default())),
            "the loop has 257 dependences, not 0 to 256 (refused 3 at 18)",
        ),
    ];
    for (made, expected) in lines {
        assert_eq!(made, expected);
    }
}

#[test]
fn a_loop_without_a_file_says_which_operation_is_wrong() {
    let latency = |latency| unwritten(|l| l.operations[1].latency = latency);
    let five = [1, 2, 3, 4, 5].map(|slot| Use { slot, duration: 1 });
    let lines = [
        (
            latency(65),
            "operation 1: the latency is 65, not 0 to 64 (refused 4 at 1)",
        ),
        (
            latency(i32::MIN),
            "operation 1: the latency is -2147483648, not 0 to 64 (refused 4 at 1)",
        ),
        (
            unwritten(|l| l.operations[2].uses = five.to_vec()),
            "operation 2: the number of uses is 5, not 0 to 4 (refused 4 at 2)",
        ),
    ];
    for (made, expected) in lines {
        assert_eq!(made, expected);
    }
}

/// The use is the second of operation 2, so that five of all come before it.
#[test]
fn a_loop_without_a_file_says_which_use_is_wrong() {
    let slot = |slot| unwritten(|l| l.operations[2].uses[1].slot = slot);
    let duration = |duration| unwritten(|l| l.operations[2].uses[1].duration = duration);
    let lines = [
        (slot(0), "the slot is 0, not 1 to 24"),
        (slot(25), "the slot is 25, not 1 to 24"),
        (
            slot(2),
            "the slot is 2, not above 2, that of the use before",
        ),
        (
            slot(1),
            "the slot is 1, not above 2, that of the use before",
        ),
        (duration(0), "the duration is 0, not 1 to 16"),
        (duration(17), "the duration is 17, not 1 to 16"),
    ];
    for (made, expected) in lines {
        let expected = format!("operation 2, use 1 (use 5 of all): {expected} (refused 5 at 5)");
        assert_eq!(made, expected);
    }
    assert_eq!(
        unwritten(|l| l.operations[1].uses[0].slot = -1),
        "operation 1, use 0 (use 2 of all): the slot is -1, not 1 to 24 (refused 5 at 2)"
    );
}

#[test]
fn a_loop_without_a_file_says_which_dependence_is_wrong() {
    let lines = [
        (
            unwritten(|l| l.dependences[1].from = 3),
            "from is 3, not below 3, the number of operations",
        ),
        (
            unwritten(|l| l.dependences[1].to = usize::MAX),
            "to is 18446744073709551615, not below 3, the number of operations",
        ),
        (
            unwritten(|l| l.dependences[1].delay = 65),
            "the delay is 65, not -64 to 64",
        ),
        (
            unwritten(|l| l.dependences[1].delay = -65),
            "the delay is -65, not -64 to 64",
        ),
        (
            unwritten(|l| l.dependences[1].distance = 16),
            "the distance is 16, not 0 to 15",
        ),
        (
            unwritten(|l| l.dependences[1].distance = -1),
            "the distance is -1, not 0 to 15",
        ),
    ];
    for (made, expected) in lines {
        assert_eq!(made, format!("dependence 1: {expected} (refused 6 at 1)"));
    }
}

/// Numbers at both ends of their ranges are written. Operation numbers that no number of the writer can hold are refused, and
/// do not wrap round to one that there is.
#[test]
fn a_loop_in_range_is_written() {
    let mut described = right();
    assert_eq!(
        described.to_file().map(|file| file.len()),
        Ok(26 + 6 + 12 + 12)
    );
    described.operations[0].latency = 64;
    described.operations[1].uses[0] = Use {
        slot: 1,
        duration: 16,
    };
    described.operations[1].uses[1].slot = 24;
    for (at, delay, distance) in [(0, -64, 15), (1, 64, 0)] {
        described.dependences[at] = Dependence {
            from: 2,
            to: 2,
            delay,
            distance,
        };
    }
    let file = described.to_file().unwrap();
    assert_eq!(Loop::from_file(&file), Ok(described.clone()));
    for from in [1 << 31, 1 << 32, (1 << 32) + 1, usize::MAX] {
        described.dependences[2].from = from;
        let error = described.to_file().unwrap_err();
        assert_eq!((error.refusal.number, error.refusal.detail), (6, 2));
    }
}

/// Lists of numbers: the message is about records, and never about bytes of a file.
#[test]
fn lists_without_a_file_say_why() {
    let wide = [1; 4 * 257];
    let lines: [(&[i32], &[i32], &[i32], usize, &str); 8] = [
        (&[], &[], &[], 64, "the list of operations is not of 1 to 64 whole operations (refused 3 at 2)"),
        (&[1, 0, 1], &[], &[], 64, "the list of operations is not of 1 to 64 whole operations (refused 3 at 2)"),
        (&[1, 0], &[], &wide, 64, "the list of dependences is not of 0 to 256 whole dependences (refused 3 at 18)"),
        (&[1, 0, 1, 5], &[], &[], 64, "operation 1: the latency is not 0 to 64, or the number of uses is not 0 to 4 (refused 4 at 1)"),
        (&[1, 1], &[1, 1, 2, 1], &[], 64, "use 2 of all is out of range or out of order, or 2 is not the number of uses that the operations have (refused 5 at 2)"),
        (&[1, 1], &[0, 1], &[], 64, "use 0 of all is out of range or out of order, or 0 is not the number of uses that the operations have (refused 5 at 0)"),
        (&[1, 0], &[], &[0, 1, 0, 0], 64, "dependence 0: from or to is no operation, the delay is not -64 to 64, or the distance is not 0 to 15 (refused 6 at 0)"),
        (&[1, 0], &[], &[], 27, "the buffer has 27 bytes, and the file has more (refused 20 at 27)"),
    ];
    for (ops, uses, deps, room, expected) in lines {
        let error = write(ops, uses, deps, &mut vec![0; room]).unwrap_err();
        assert_eq!(error.to_string(), expected);
        assert_eq!(Refusal::from(error), error.refusal);
    }
    assert_eq!(write(&[1, 0], &[], &[], &mut [0; 28]), Ok(28));
}

#[test]
fn a_search_tells_its_probes() {
    let file = include_bytes!("../../../examples/b2.loop");
    let request = Request {
        cap: 3,
        horizon: 8,
        ..Request::default()
    };
    let error = search(file, request).unwrap_err();
    assert_eq!(
        error.to_string(),
        "there is no schedule at any interval up to 3 (refused 10 at 3) after 72 probes"
    );
    assert_eq!(Refusal::from(error).kind(), Some(Kind::NoSchedule));
    let error = search(&[], request).unwrap_err();
    assert_eq!(
        error.to_string(),
        "the file has 0 bytes, not 26 to 1690 (refused 1 at 0)"
    );
}
