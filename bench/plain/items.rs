//! One unit or composite at the head of some bytes.

#[derive(Clone, Copy)]
pub struct Item {
    pub main_type: u8,
    pub subtype: u8,
    pub body: usize,
}

/// Every permitted header is two bytes.
pub const HEADER: usize = 2;

impl Item {
    pub fn used(self) -> usize {
        HEADER + self.body
    }
}

/// The item, or 7, 8, 9.
pub fn read(bytes: &[u8]) -> Result<Item, u32> {
    let &[first, second, ref rest @ ..] = bytes else {
        return Err(7);
    };
    if (first | second) & 0x88 != 0 {
        return Err(long_header(bytes));
    }
    let (main_type, subtype, version, length) = (first >> 4, first & 15, second >> 4, second & 15);
    let body = match main_type {
        0 | 3 | 4 if subtype == 0 => 4 * (length as usize + 1),
        1 | 2 if subtype <= 4 => 4 * (length as usize + 1),
        5 if (subtype, length) == (7, 0) => 32,
        5 if composite_subtype(subtype, length) => 8 * (2 + length.count_ones() as usize),
        6 if subtype <= 5 && length <= 4 => 8 + length as usize,
        _ => return Err(8),
    };
    if version != 0 {
        return Err(8);
    }
    if rest.len() < body {
        return Err(9);
    }
    Ok(Item { main_type, subtype, body })
}

/// Of a composite that is not wide.
fn composite_subtype(subtype: u8, length: u8) -> bool {
    match length {
        0 => subtype == 5,
        4 => subtype == 6,
        _ => subtype <= 4,
    }
}

/// A header with a number above 7 is never permitted: 8 where it can be read at all, else 7.
#[cold]
fn long_header(bytes: &[u8]) -> u32 {
    let nibble = |at: usize| bytes.get(at / 2).map(|byte| byte >> (4 - at % 2 * 4) & 15);
    let mut at = 0;
    for _ in 0..4 {
        let Some(first) = nibble(at) else { return 7 };
        at += 1 + (first << 4).leading_ones() as usize;
        if first == 15 || at > 2 * bytes.len() {
            return 7;
        }
    }
    if at % 2 == 1 && nibble(at) != Some(0) {
        return 7;
    }
    8
}
