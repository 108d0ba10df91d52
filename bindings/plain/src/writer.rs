//! How a loop file is written, from lists of numbers and from a loop. The tests hold the library's writer to
//! [`write_lists`], and the benchmark measures it against that; with the others the tests make their files, and spoil some.

use super::file::{Loop, Section, HEAD, SECTIONS};
use super::{check, Refusal};

/// Writes the file of the loop that three lists of numbers describe to the beginning of a buffer, and gives its length; or
/// the first refusal, and then the buffer stays as it was. An operation is two numbers (latency, number of uses), a use two
/// (slot, duration), a dependence four (from, to, delay, distance).
pub fn write_lists(
    ops: &[i32],
    uses: &[i32],
    deps: &[i32],
    buffer: &mut [u8],
) -> Result<usize, Refusal> {
    let [oper, _, dependence] = &SECTIONS;
    check_size(oper, ops.len())?;
    check_size(dependence, deps.len())?;
    check_operations(ops)?;
    check_uses(ops, uses)?;
    check_dependences(ops.len() / 2, deps)?;
    let length = HEAD + ops.len() + uses.len() + deps.len();
    check(buffer.len() >= length, 20, buffer.len())?;
    buffer[..HEAD].copy_from_slice(&head([ops.len(), uses.len(), deps.len()]));
    let mut at = HEAD;
    for numbers in [ops, uses, deps] {
        for (byte, &number) in buffer[at..].iter_mut().zip(numbers) {
            // Below 0 by two's complement.
            *byte = number as u8;
        }
        at += numbers.len();
    }
    Ok(length)
}

/// Refusal 3: a list of so many numbers is not of whole records, or not of as many as its section may have.
fn check_size(section: &Section, numbers: usize) -> Result<(), Refusal> {
    let records = numbers / section.record;
    let whole = records * section.record == numbers;
    let right = whole && section.records.contains(&records);
    check(right, 3, section.entry)
}

/// Refusal 4.
fn check_operations(ops: &[i32]) -> Result<(), Refusal> {
    for (number, op) in ops.chunks_exact(2).enumerate() {
        let right = (0..=64).contains(&op[0]) && (0..=4).contains(&op[1]);
        check(right, 4, number)?;
    }
    Ok(())
}

/// Refusal 5, of operations that are right: first for the number of uses, then use by use.
fn check_uses(ops: &[i32], uses: &[i32]) -> Result<(), Refusal> {
    let numbers = ops.chunks_exact(2).map(|op| op[1] as usize);
    let total: usize = numbers.clone().sum();
    check(uses.len() == 2 * total, 5, uses.len() / 2)?;
    let mut records = uses.chunks_exact(2).enumerate();
    for of_one in numbers {
        let mut before = 0;
        for (number, record) in records.by_ref().take(of_one) {
            let (slot, duration) = (record[0], record[1]);
            let right = before < slot && slot <= 24 && (1..=16).contains(&duration);
            check(right, 5, number)?;
            before = slot;
        }
    }
    Ok(())
}

/// Refusal 6, of dependences between so many operations.
fn check_dependences(operations: usize, deps: &[i32]) -> Result<(), Refusal> {
    let is_operation = |number: i32| usize::try_from(number).is_ok_and(|op| op < operations);
    for (number, d) in deps.chunks_exact(4).enumerate() {
        let right = is_operation(d[0])
            && is_operation(d[1])
            && (-64..=64).contains(&d[2])
            && (0..=15).contains(&d[3]);
        check(right, 6, number)?;
    }
    Ok(())
}

/// The file of a loop.
pub fn write(code: &Loop) -> Vec<u8> {
    assemble(&body_bytes(code))
}

/// The bytes of the three bodies of a loop.
pub fn body_bytes(code: &Loop) -> [Vec<u8>; 3] {
    let operations = code.operations.iter();
    let uses = code.operations.iter().flat_map(|op| &op.uses);
    let dependences = code.dependences.iter();
    [
        operations
            .flat_map(|op| [op.latency, op.uses.len() as u8])
            .collect(),
        uses.flat_map(|u| [u.slot, u.duration]).collect(),
        dependences
            .flat_map(|d| [d.from as u8, d.to as u8, d.delay as u8, d.distance as u8])
            .collect(),
    ]
}

/// A file of three bodies, with a head that fits them, whatever is in the bodies.
pub fn assemble(bodies: &[Vec<u8>; 3]) -> Vec<u8> {
    let lengths = [bodies[0].len(), bodies[1].len(), bodies[2].len()];
    let mut file = head(lengths).to_vec();
    file.extend(bodies.concat());
    file
}

/// The head of a file with bodies of these lengths.
fn head(lengths: [usize; 3]) -> [u8; HEAD] {
    let mut head = [0; HEAD];
    head[..2].copy_from_slice(&[1, 3]);
    let mut offset = HEAD;
    for (section, length) in SECTIONS.iter().zip(lengths) {
        let entry = &mut head[section.entry..section.entry + 8];
        entry[..4].copy_from_slice(section.tag);
        entry[4..6].copy_from_slice(&(offset as u16).to_le_bytes());
        entry[6..].copy_from_slice(&(length as u16).to_le_bytes());
        offset += length;
    }
    head
}
