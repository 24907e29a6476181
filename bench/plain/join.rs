//! Composites from lists of units, in one pass over the bytes.

use crate::items::{self, HEADER};

/// What is known of the items read so far.
pub struct List {
    pub count: usize,
    composite_or_id: bool,
    not_64_bits: bool,
    twice: bool,
    /// A bit for each main type.
    seen: u8,
    /// The subtypes of SEMANTIC and CONTENT.
    subtypes: [u8; 2],
    bodies: [[u8; 8]; 5],
}

/// Reads all items from the left; 7, 8 or 9 of the first that is not one.
pub fn read_list(bytes: &[u8]) -> Result<List, u32> {
    let mut list = List {
        count: 0,
        composite_or_id: false,
        not_64_bits: false,
        twice: false,
        seen: 0,
        subtypes: [0; 2],
        bodies: [[0; 8]; 5],
    };
    let mut at = 0;
    while at < bytes.len() || list.count == 0 {
        let item = items::read(&bytes[at..])?;
        list.count += 1;
        let bit = 1 << item.main_type;
        list.twice |= list.seen & bit != 0;
        list.seen |= bit;
        list.composite_or_id |= item.main_type > 4;
        list.not_64_bits |= item.body != 8;
        if item.main_type <= 4 && item.body == 8 {
            list.bodies[item.main_type as usize].copy_from_slice(&bytes[at + HEADER..at + HEADER + 8]);
            if matches!(item.main_type, 1 | 2) {
                list.subtypes[item.main_type as usize - 1] = item.subtype;
            }
        }
        at += item.used();
    }
    Ok(list)
}

/// The composite of a list of two or more: tests 10 to 14, then the count of its bytes.
pub fn compose(list: &List, out: &mut [u8; 42]) -> Result<usize, u32> {
    let has = |main_type: u8| list.seen >> main_type & 1 == 1;
    if list.composite_or_id {
        return Err(10);
    }
    if list.not_64_bits {
        return Err(11);
    }
    if list.twice {
        return Err(12);
    }
    if !has(3) || !has(4) {
        return Err(13);
    }
    if has(1) && has(2) && list.subtypes[0] != list.subtypes[1] {
        return Err(14);
    }
    let subtype = match (has(1), has(2), has(0)) {
        (true, _, _) => list.subtypes[0],
        (_, true, _) => list.subtypes[1],
        (_, _, false) => 5,
        (_, _, true) => 6,
    };
    out[0] = 5 << 4 | subtype;
    out[1] = (has(0) as u8) << 2 | (has(1) as u8) << 1 | has(2) as u8;
    let mut length = HEADER;
    for main_type in 0..5 {
        if has(main_type) {
            out[length..length + 8].copy_from_slice(&list.bodies[main_type as usize]);
            length += 8;
        }
    }
    Ok(length)
}

fn joined(bytes: &[u8], out: &mut [u8]) -> Result<usize, u32> {
    let list = read_list(bytes)?;
    if list.count == 1 {
        return Err(if list.composite_or_id { 10 } else { 13 });
    }
    let mut code = [0; 42];
    let length = compose(&list, &mut code)?;
    if length > out.len() {
        return Err(15);
    }
    out[..length].copy_from_slice(&code[..length]);
    Ok(length)
}

#[inline(never)]
pub fn join(bytes: &[u8], out: &mut [u8]) -> (u32, usize) {
    joined(bytes, out).map_or_else(|number| (number, 0), |length| (0, length))
}
