//! Random bytes of units, composites and lists: valid, nearly valid, damaged, and nothing of the kind.

use crate::random::Random;
use std::collections::{BTreeSet, HashSet};

/// Each main type's count of subtypes and of length numbers.
const SINGLE: [(u8, u8, u8); 6] = [(0, 1, 8), (1, 5, 8), (2, 5, 8), (3, 1, 8), (4, 1, 8), (6, 6, 5)];

fn with_body(random: &mut Random, main_type: u8, subtype: u8, length: u8, body: usize) -> Vec<u8> {
    let mut bytes = vec![main_type << 4 | subtype, length];
    bytes.extend(body_bytes(random, body));
    bytes
}

/// Mostly random; sometimes all zeros or all ones.
fn body_bytes(random: &mut Random, length: usize) -> Vec<u8> {
    match random.below(8) {
        0 => vec![0x00; length],
        1 => vec![0xff; length],
        _ => random.bytes(length),
    }
}

/// A permitted unit, an ID included.
pub fn unit(random: &mut Random) -> Vec<u8> {
    let (main_type, subtypes, lengths) = random.pick(&SINGLE);
    let (subtype, length) = (random.below(subtypes as usize) as u8, random.below(lengths as usize) as u8);
    let body = if main_type == 6 { 8 + length as usize } else { 4 * (length as usize + 1) };
    with_body(random, main_type, subtype, length, body)
}

/// The code that comes before all others: META of 32 bits, all zero.
pub fn least() -> Vec<u8> {
    vec![0; 6]
}

/// The code that comes behind all others: ID of the last subtype and the greatest length, all ones.
pub fn greatest() -> Vec<u8> {
    [vec![0x65, 4], vec![0xff; 12]].concat()
}

/// A wide composite.
pub fn wide(random: &mut Random) -> Vec<u8> {
    with_body(random, 5, 7, 0, 32)
}

/// What is no wide composite by a little: its header has another length number, it is cut, or bytes are behind it.
pub fn nearly_wide(random: &mut Random) -> Vec<u8> {
    let mut bytes = wide(random);
    match random.below(3) {
        0 => {
            bytes[1] = 1 + random.below(7) as u8;
            let length = random.pick(&[18, 26, 34, 42, 50]);
            bytes.resize(length, 0xff);
        }
        1 => bytes.truncate(2 + random.below(32)),
        _ => {
            let more = 1 + random.below(8);
            bytes.extend(random.bytes(more));
        }
    }
    bytes
}

/// DATA and INSTANCE of 128 bits, in either order: what a wide composite is split into, and no list that can be joined.
fn units_of_wide(random: &mut Random) -> Vec<Vec<u8>> {
    let mut units = vec![with_body(random, 3, 0, 3, 16), with_body(random, 4, 0, 3, 16)];
    random.shuffle(&mut units);
    units
}

/// A composite, in some cases a wide one.
pub fn composite(random: &mut Random) -> Vec<u8> {
    if random.percent(15) {
        return wide(random);
    }
    let length = random.below(8) as u8;
    let subtype = match length {
        0 => 5,
        4 => 6,
        _ => random.below(5) as u8,
    };
    with_body(random, 5, subtype, length, 8 * (2 + length.count_ones() as usize))
}

/// Units that make a composite, in any order.
pub fn units_of_composite(random: &mut Random) -> Vec<Vec<u8>> {
    let set = random.below(8);
    units_of_set(random, set)
}

/// DATA, INSTANCE and those of a set: 4 is META, 2 SEMANTIC, 1 CONTENT.
fn units_of_set(random: &mut Random, set: usize) -> Vec<Vec<u8>> {
    let subtype = random.below(5) as u8;
    let mut units = Vec::new();
    for (main_type, present) in [(0, set & 4 != 0), (1, set & 2 != 0), (2, set & 1 != 0), (3, true), (4, true)] {
        if present {
            let own = if matches!(main_type, 1 | 2) { subtype } else { 0 };
            units.push(with_body(random, main_type, own, 1, 8));
        }
    }
    random.shuffle(&mut units);
    units
}

/// Another subtype for the first SEMANTIC or CONTENT unit, or for the first of any main type where there is none.
fn other_subtype(random: &mut Random, units: &mut [Vec<u8>]) {
    let typed = |unit: &Vec<u8>| unit.first().is_some_and(|byte| matches!(byte >> 4, 1 | 2));
    let at = units.iter().position(typed).unwrap_or(0);
    if let Some(byte) = units[at].first_mut() {
        *byte = *byte & 0xf0 | random.below(6) as u8;
    }
}

/// Breaks one of the rules on lists, or a rule on headers and bodies.
fn spoil(random: &mut Random, units: &mut Vec<Vec<u8>>) {
    let at = random.below(units.len());
    match random.below(11) {
        0 => units.push(units[at].clone()),
        1 => units[at] = unit(random),
        2 => units.push(unit(random)),
        3 => units.push(composite(random)),
        4 => drop(units.remove(at)),
        5 => other_subtype(random, units),
        6 => units[at].iter_mut().skip(1).take(1).for_each(|byte| *byte = random.byte() & 0x1f),
        7 => units[at] = random.bytes(2),
        8 => units[at] = wide(random),
        9 => *units = units_of_wide(random),
        _ => units[at].truncate(random.below(10)),
    }
    random.shuffle(units);
}

/// Units end to end; half of the lists have one to three faults.
pub fn list(random: &mut Random) -> Vec<u8> {
    let mut units = units_of_composite(random);
    if random.percent(50) {
        for _ in 0..1 + random.below(3) {
            if !units.is_empty() {
                spoil(random, &mut units);
            }
        }
    }
    units.concat()
}

/// Many units, so that a fault stands far behind; some end in a cut one.
pub fn long_list(random: &mut Random) -> Vec<u8> {
    let mut bytes = Vec::new();
    for _ in 0..random.below(400) {
        bytes.extend(if random.percent(2) { list(random) } else { with_body(random, 3, 0, 1, 8) });
    }
    if random.percent(30) {
        bytes.extend(unit(random));
        bytes.truncate(bytes.len() - 1 - random.below(3));
    }
    bytes
}

/// Flips a bit, changes, cuts, drops or adds a byte.
pub fn damage(random: &mut Random, bytes: &mut Vec<u8>) {
    let at = random.below(bytes.len() + 1);
    let inside = at < bytes.len();
    match random.below(6) {
        0 if inside => bytes[at] ^= 1 << random.below(8),
        1 if inside => bytes[at] = random.byte(),
        2 if inside => drop(bytes.remove(at)),
        3 => bytes.truncate(at),
        4 => bytes.insert(at, random.byte()),
        _ => bytes.push(random.byte()),
    }
}

/// Bytes for a reader of one item or more.
pub fn items(random: &mut Random) -> Vec<u8> {
    let mut bytes = match random.below(20) {
        0..=3 => unit(random),
        4..=7 => composite(random),
        8..=16 => list(random),
        17 => refused(random),
        18 => nearly_wide(random),
        _ => {
            let length = random.pick(&[0, 1, 2, 3, 8, 9, 10, 18, 20, 42, 50]);
            random.bytes(length)
        }
    };
    while random.percent(20) {
        damage(random, &mut bytes);
    }
    bytes
}

/// Bytes that intake refuses, each number from 7 to 14 about as often as any other.
pub fn refused(random: &mut Random) -> Vec<u8> {
    let mut units = units_of_set(random, 7);
    match random.below(8) {
        0 => units[0][0] |= 0xf0,
        1 => units[0][0] = 0x70,
        2 => units[4].truncate(2 + random.below(8)),
        3 => units[0] = with_body(random, 6, 0, 0, 8),
        4 => {
            units.truncate(4);
            units.push(with_body(random, 2, 0, 0, 4));
        }
        5 => units[0] = units[1].clone(),
        6 => {
            let lost = random.pick(&[0x30, 0x40]);
            units.retain(|unit| unit[0] != lost);
        }
        _ => units.iter_mut().filter(|unit| unit[0] >> 4 == 1).for_each(|unit| unit[0] = 0x10 | (unit[0] + 1) % 5),
    }
    units.concat()
}

/// Bytes with a wide composite, or nearly one, that intake refuses: 8, 9, 10 and 11, and others where bytes are behind it.
pub fn refused_wide(random: &mut Random) -> Vec<u8> {
    match random.below(6) {
        0 => units_of_wide(random).concat(),
        1 => [wide(random), with_body(random, 3, 0, 1, 8)].concat(),
        _ => nearly_wide(random),
    }
}

/// A code that shares most with another: a bit of its body differs, mostly in the last byte, or its first byte does. A
/// composite of 34 bytes gets the header of another one, or of a wide one.
fn neighbour(random: &mut Random, code: &[u8]) -> Vec<u8> {
    let mut code = code.to_vec();
    let last = code.len() - 1;
    let any = 2 + random.below(last - 1);
    let at = random.pick(&[last, last, 0, 2, any]);
    match at {
        0 if code[0] >> 4 < 5 => code[0] = random.pick(&[0x00, 0x10, 0x14, 0x20, 0x21, 0x30, 0x40]),
        0 if code.len() == 34 => code[..2].copy_from_slice(&random.pick(&[[0x57, 0], [0x50, 3], [0x50, 5], [0x54, 6]])),
        0 => (),
        _ => code[at] ^= 1 << random.below(8),
    }
    code
}

/// So many codes, no two alike; many are neighbours.
pub fn different(random: &mut Random, count: usize) -> Vec<Vec<u8>> {
    let (mut codes, mut known): (Vec<Vec<u8>>, _) = (Vec::new(), HashSet::new());
    while codes.len() < count {
        let code = match random.below(10) {
            0..=3 if !codes.is_empty() => {
                let of = random.below(codes.len());
                neighbour(random, &codes[of])
            }
            4..=6 => composite(random),
            _ => unit(random),
        };
        if known.insert(code.clone()) {
            codes.push(code);
        }
    }
    codes
}

/// So many composites of 64-bit units, no two alike; many share most with another.
pub fn different_composites(random: &mut Random, count: usize) -> Vec<Vec<u8>> {
    let mut codes: Vec<Vec<u8>> = Vec::new();
    while codes.len() < count {
        let mut code = composite(random);
        if let Some(other) = codes.last().filter(|_| random.percent(40)) {
            code = other.clone();
            let at = random.pick(&[code.len() - 1, 2]);
            code[at] ^= 1 << random.below(8);
        }
        if code[..2] != [0x57, 0] && !codes.contains(&code) {
            codes.push(code);
        }
    }
    codes
}

/// So many codes with one header, no two alike.
pub fn with_one_header(random: &mut Random, count: usize) -> Vec<Vec<u8>> {
    let code = if random.percent(30) { composite(random) } else { unit(random) };
    let mut known = BTreeSet::new();
    while known.len() < count {
        known.insert([&code[..2], &random.bytes(code.len() - 2)].concat());
    }
    let mut codes: Vec<Vec<u8>> = known.into_iter().collect();
    random.shuffle(&mut codes);
    codes
}
