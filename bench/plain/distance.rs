//! Differing bits of two units.

use crate::items::{self, Item, HEADER};

fn only_item(bytes: &[u8]) -> Result<Item, u32> {
    let item = items::read(bytes)?;
    if item.used() == bytes.len() {
        Ok(item)
    } else {
        Err(19)
    }
}

/// Of bodies of one length, which is a multiple of four: words of eight bytes, then four if they are left.
fn differing(a: &[u8], b: &[u8]) -> u32 {
    let word = |bytes: &[u8]| u64::from_ne_bytes(bytes.try_into().unwrap());
    let half = |bytes: &[u8]| u32::from_ne_bytes(bytes.try_into().unwrap());
    let words = a.chunks_exact(8).zip(b.chunks_exact(8)).map(|(x, y)| (word(x) ^ word(y)).count_ones()).sum::<u32>();
    match (a.chunks_exact(8).remainder(), b.chunks_exact(8).remainder()) {
        ([], []) => words,
        (x, y) => words + (half(x) ^ half(y)).count_ones(),
    }
}

fn measured(a: &[u8], b: &[u8]) -> Result<(u32, u32), u32> {
    let (first, second) = (only_item(a)?, only_item(b)?);
    if first.main_type > 3 || first.main_type != second.main_type || first.subtype != second.subtype {
        return Err(18);
    }
    let shorter = first.body.min(second.body);
    let (a, b) = (&a[HEADER..HEADER + shorter], &b[HEADER..HEADER + shorter]);
    Ok((differing(a, b), 8 * shorter as u32))
}

#[inline(never)]
pub fn distance(a: &[u8], b: &[u8]) -> (u32, u32, u32, f32) {
    match measured(a, b) {
        Err(number) => (number, 0, 0, 0.0),
        Ok((d, n)) => (0, d, n, d as f32 / n as f32),
    }
}
