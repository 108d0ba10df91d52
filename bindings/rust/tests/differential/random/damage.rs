//! Files that are mostly no loop files: each is a loop's file with something wrong in it.

use super::{loops, Random};
use plain::file::{Loop, HEAD};
use plain::writer::{assemble, body_bytes, write};

/// A loop's file, or now and then a damaged one.
pub fn mostly_whole(random: &mut Random, described: &Loop) -> Vec<u8> {
    if random.once_in(10) {
        damaged(random, described)
    } else {
        write(described)
    }
}

/// Any file: one half are whole.
pub fn any(random: &mut Random) -> Vec<u8> {
    let described = loops::any(random);
    if random.once_in(2) {
        write(&described)
    } else {
        damaged(random, &described)
    }
}

/// A damaged file. Some damage leaves a loop file, of another loop.
pub fn damaged(random: &mut Random, described: &Loop) -> Vec<u8> {
    let whole = write(described);
    match random.below(16) {
        0 => noise(random),
        1 => wrong_length(random, whole),
        2..=3 => wrong_bytes(random, whole),
        4 => wrong_head(random, whole),
        5..=6 => wrong_entry(random, whole),
        7..=8 => wrong_field(random, described, 0),
        9..=10 => wrong_field(random, described, 1),
        11..=12 => wrong_field(random, described, 2),
        13 => wrong_number(random, described),
        14 => over_limit(random, described),
        _ => shifted(random, described),
    }
}

/// Bytes of any kind: none, few, many, or too many.
fn noise(random: &mut Random) -> Vec<u8> {
    let length = match random.below(5) {
        0 => 0,
        1 => random.below(HEAD),
        2 => random.within(HEAD..=60),
        3 => random.within(HEAD..=1690),
        _ => random.within(1691..=6000),
    };
    let mut bytes = random.bytes(length);
    if length >= 2 && random.once_in(2) {
        bytes[..2].copy_from_slice(&[1, 3]);
    }
    bytes
}

/// Cut off, or longer than it says.
fn wrong_length(random: &mut Random, mut file: Vec<u8>) -> Vec<u8> {
    let length = match random.below(6) {
        0 => random.below(file.len()),
        1 => file.len() - 1,
        2 => file.len() + random.within(1..=8),
        3 => random.one_of(&[0, 1, 25, 26, 27]),
        4 => random.one_of(&[1689, 1690, 1691, 1692]),
        _ => random.within(1690..=4000),
    };
    file.resize(length, random.byte());
    file
}

/// One to four bytes anywhere, or single bits of them.
fn wrong_bytes(random: &mut Random, mut file: Vec<u8>) -> Vec<u8> {
    for _ in 0..random.one_of(&[1, 1, 1, 2, 4]) {
        let at = random.below(file.len());
        file[at] = if random.once_in(2) {
            random.byte()
        } else {
            file[at] ^ (1 << random.below(8))
        };
    }
    file
}

/// Another version or number of sections.
fn wrong_head(random: &mut Random, mut file: Vec<u8>) -> Vec<u8> {
    let value = random.byte();
    let at = random.below(2);
    file[at] = random.one_of(&[0, 1, 2, 3, 4, value]);
    file
}

/// Another tag, offset or length in one of the entries.
fn wrong_entry(random: &mut Random, mut file: Vec<u8>) -> Vec<u8> {
    let entry = 2 + 8 * random.below(3);
    if random.once_in(3) {
        let at = entry + random.below(4);
        file[at] = random.byte();
        return file;
    }
    let at = entry + random.one_of(&[4, 6]);
    let number = u16::from_le_bytes([file[at], file[at + 1]]);
    let step = random.one_of(&[1, 2, 4, 8, 128, 256, 65_535, 65_534, 65_532]);
    let value = match random.below(4) {
        0 => random.any() as u16,
        1 => 0,
        _ => number.wrapping_add(step),
    };
    file[at..at + 2].copy_from_slice(&value.to_le_bytes());
    file
}

/// A value at the edge of its range or past it, in one byte of a section's body.
fn wrong_field(random: &mut Random, described: &Loop, section: usize) -> Vec<u8> {
    let operations = described.operations.len() as u8;
    let mut bodies = body_bytes(described);
    let body = &mut bodies[section];
    if !body.is_empty() {
        let at = random.below(body.len());
        let before = if at >= 2 { body[at - 2] } else { 0 };
        let edges: &[u8] = match (section, at % 2, at % 4) {
            (0, 0, _) => &[63, 64, 65, 128, 255],
            (0, ..) => &[3, 4, 5, 6, 255],
            (1, 0, _) => &[before, before, 0, 1, 24, 25, 255],
            (1, ..) => &[0, 1, 16, 17, 255],
            (_, _, 0 | 1) => &[operations, operations - 1, 63, 64, 255],
            (_, _, 2) => &[64, 65, 127, 128, 191, 192],
            _ => &[15, 16, 17, 255],
        };
        body[at] = random.one_of(edges);
    }
    assemble(&bodies)
}

/// More or fewer records than the others ask for, with a head that fits.
fn wrong_number(random: &mut Random, described: &Loop) -> Vec<u8> {
    let mut bodies = body_bytes(described);
    let section = random.below(3);
    let body = &mut bodies[section];
    match random.below(4) {
        0 => body.clear(),
        1 => body.truncate(body.len().saturating_sub(random.within(1..=4))),
        _ => body.extend(random.one_of(&[&[1, 1][..], &[1], &[0, 0, 0, 0], &[1, 0, 9, 1]])),
    }
    assemble(&bodies)
}

/// As many records of a section as are allowed, or more, with a head that fits.
fn over_limit(random: &mut Random, described: &Loop) -> Vec<u8> {
    let mut bodies = body_bytes(described);
    let section = random.below(3);
    let most = [128, 512, 1024][section];
    let more = random.one_of(&[0, 1, 2, 4, 8, 100]);
    bodies[section].resize(most + more, random.one_of(&[0, 1]));
    assemble(&bodies)
}

/// The border between two sections somewhere else, with a head that fits.
fn shifted(random: &mut Random, described: &Loop) -> Vec<u8> {
    let bodies = body_bytes(described);
    let all = bodies.concat();
    let near = |random: &mut Random, border: usize| {
        let step = random.one_of(&[0, 1, 2, 2, 4, 4, 8]);
        if random.once_in(2) {
            border + step
        } else {
            border.saturating_sub(step)
        }
    };
    let first = near(random, bodies[0].len()).min(all.len());
    let second = near(random, bodies[0].len() + bodies[1].len()).clamp(first, all.len());
    assemble(&[
        all[..first].to_vec(),
        all[first..second].to_vec(),
        all[second..].to_vec(),
    ])
}
