//! The loop file: what it describes, and how it is read.

use super::{check, Refusal};
use std::ops::{Range, RangeInclusive};

/// A slot that an operation holds for some cycles, from its first one on.
#[derive(Clone, Debug, PartialEq)]
pub struct Use {
    pub slot: u8,
    pub duration: u8,
}

#[derive(Clone, Debug, PartialEq)]
pub struct Operation {
    pub latency: u8,
    pub uses: Vec<Use>,
}

#[derive(Clone, Copy, Debug, PartialEq)]
pub struct Dependence {
    pub from: usize,
    pub to: usize,
    pub delay: i32,
    pub distance: i32,
}

/// A loop. Operations and dependences are numbered from 0, by their places.
#[derive(Clone, Debug, PartialEq)]
pub struct Loop {
    pub operations: Vec<Operation>,
    pub dependences: Vec<Dependence>,
}

/// The bytes before the first body; the shortest file has no others.
pub const HEAD: usize = 26;

/// The bytes of the longest file.
pub const FILE_MOST: usize = 1690;

/// The most operations that a loop has.
pub const OPERATIONS_MOST: usize = 64;

/// A section of the file: where its entry stands, its tag, the bytes of a record, and how many records it may have.
pub(super) struct Section {
    pub(super) entry: usize,
    pub(super) tag: &'static [u8; 4],
    pub(super) record: usize,
    pub(super) records: RangeInclusive<usize>,
}

pub(super) const SECTIONS: [Section; 3] = [
    Section {
        entry: 2,
        tag: b"OPER",
        record: 2,
        records: 1..=OPERATIONS_MOST,
    },
    Section {
        entry: 10,
        tag: b"USES",
        record: 2,
        records: 0..=256,
    },
    Section {
        entry: 18,
        tag: b"DEPS",
        record: 4,
        records: 0..=256,
    },
];

/// The loop of a file, or the first refusal.
pub fn read(file: &[u8]) -> Result<Loop, Refusal> {
    let length = file.len();
    check(
        (HEAD..=FILE_MOST).contains(&length),
        1,
        length.min(FILE_MOST + 1),
    )?;
    check(file[0] == 1, 2, 0)?;
    check(file[1] == 3, 2, 1)?;
    let [oper, uses, deps] = bodies(file)?;
    let number = check_operations(file, oper.clone())?;
    check(uses.len() == 2 * number, 5, uses.start)?;
    let operations = operations(file, oper, uses.start)?;
    let dependences = dependences(file, deps, operations.len())?;
    Ok(Loop {
        operations,
        dependences,
    })
}

/// Where the three bodies are; refusal 3.
fn bodies(file: &[u8]) -> Result<[Range<usize>; 3], Refusal> {
    let word = |at: usize| usize::from(u16::from_le_bytes([file[at], file[at + 1]]));
    let mut bodies = [0..0, 0..0, 0..0];
    let mut end = HEAD;
    for (section, body) in SECTIONS.iter().zip(&mut bodies) {
        let entry = section.entry;
        let (offset, length) = (word(entry + 4), word(entry + 6));
        let right = file[entry..entry + 4] == *section.tag
            && offset == end
            && length % section.record == 0
            && section.records.contains(&(length / section.record));
        check(right, 3, entry)?;
        end = offset + length;
        *body = offset..end;
    }
    check(end == file.len(), 3, SECTIONS[2].entry)?;
    Ok(bodies)
}

/// How many uses all operations have; refusal 4.
fn check_operations(file: &[u8], body: Range<usize>) -> Result<usize, Refusal> {
    let mut uses = 0;
    for at in body.step_by(2) {
        check(file[at] <= 64, 4, at)?;
        check(file[at + 1] <= 4, 4, at + 1)?;
        uses += usize::from(file[at + 1]);
    }
    Ok(uses)
}

/// The operations, whose own records are right, with their uses, which stand from an offset on; refusal 5.
fn operations(file: &[u8], body: Range<usize>, uses: usize) -> Result<Vec<Operation>, Refusal> {
    let mut at = uses;
    let mut operations = Vec::with_capacity(body.len() / 2);
    for record in file[body].chunks_exact(2) {
        let number = usize::from(record[1]);
        operations.push(Operation {
            latency: record[0],
            uses: uses_of_one(file, at, number)?,
        });
        at += 2 * number;
    }
    Ok(operations)
}

/// So many uses of one operation, from an offset on; refusal 5.
fn uses_of_one(file: &[u8], from: usize, number: usize) -> Result<Vec<Use>, Refusal> {
    let mut uses = Vec::with_capacity(number);
    let mut before = 0;
    for at in (from..from + 2 * number).step_by(2) {
        let (slot, duration) = (file[at], file[at + 1]);
        check(before < slot && slot <= 24, 5, at)?;
        check((1..=16).contains(&duration), 5, at + 1)?;
        uses.push(Use { slot, duration });
        before = slot;
    }
    Ok(uses)
}

/// The dependences between so many operations; refusal 6.
fn dependences(
    file: &[u8],
    body: Range<usize>,
    operations: usize,
) -> Result<Vec<Dependence>, Refusal> {
    let mut dependences = Vec::with_capacity(body.len() / 4);
    for at in body.step_by(4) {
        let d = Dependence {
            from: usize::from(file[at]),
            to: usize::from(file[at + 1]),
            delay: i32::from(file[at + 2] as i8),
            distance: i32::from(file[at + 3]),
        };
        check(d.from < operations, 6, at)?;
        check(d.to < operations, 6, at + 1)?;
        check((-64..=64).contains(&d.delay), 6, at + 2)?;
        check(d.distance <= 15, 6, at + 3)?;
        dependences.push(d);
    }
    Ok(dependences)
}
