//! The area of a register or of a log in few words, and the numbers that stand in a register.

use crate::call::Values;
use crate::hex;
use reference::register::{COUNTS, LAST, LENGTH, PLACE};

/// So many parts are shown.
const MOST_SHOWN: usize = 32;

/// FNV-1a of 64 bits, as the vectors have it.
pub fn hash(area: &[u8]) -> String {
    let hash =
        area.iter().fold(0xcbf2_9ce4_8422_2325_u64, |hash, &byte| (hash ^ u64::from(byte)).wrapping_mul(0x100_0000_01b3));
    format!("{hash:016x}")
}

/// The numbers that stand before the places, true or not: two bytes each, high byte first.
pub fn numbers(area: &[u8]) -> Values {
    std::array::from_fn(|at| u64::from(area[2 * at]) << 8 | u64::from(area[2 * at + 1]))
}

/// The places of a register, without the counts and the last number.
pub fn places(area: &[u8]) -> &[u8] {
    area.get(COUNTS..LAST.min(area.len())).unwrap_or_default()
}

/// The last record number that stands in a register; none in an area of another length.
pub fn last_number(area: &[u8]) -> Option<u32> {
    let bytes = area.get(LAST..).filter(|_| area.len() == LENGTH)?;
    Some(u32::from_be_bytes(bytes.try_into().ok()?))
}

/// The parts of a register, each with its offset and its name: the counts, then the places, then the last number and whatever
/// stands behind it.
fn parts(area: &[u8]) -> impl Iterator<Item = (usize, String, &[u8])> {
    let (before, last) = area.split_at(LAST.min(area.len()));
    let (counts, places) = before.split_at(COUNTS.min(before.len()));
    let places = places.chunks(PLACE).enumerate();
    let places = places.map(|(place, bytes)| (COUNTS + place * PLACE, format!("place {place}"), bytes));
    let last = std::iter::once((LAST, "the last number".to_string(), last));
    std::iter::once((0, "the counts".to_string(), counts)).chain(places).chain(last)
}

/// A register's length, and each part that is not all zeros by its offset, without the zeros at its end.
pub fn shown(area: &[u8]) -> String {
    let used = parts(area).filter_map(|(offset, _, bytes)| {
        let last = bytes.iter().rposition(|&byte| byte != 0)?;
        Some(format!("{offset}:{}", hex::encode(&bytes[..=last])))
    });
    let used: Vec<String> = used.collect();
    let more = used.len().saturating_sub(MOST_SHOWN);
    let behind = if more == 0 { String::new() } else { format!(",(and {more} more)") };
    format!("{}[{}{behind}]", area.len(), used[..used.len() - more].join(","))
}

/// The first part of a register that is not as it is due, whole.
pub fn part_difference(due: &[u8], found: &[u8]) -> Option<String> {
    let mut both = parts(due).zip(parts(found));
    let ((_, name, due), (_, _, found)) = both.find(|(due, found)| due.2 != found.2)?;
    Some(format!("first in {name}: expected {}, found {}", hex::encode(due), hex::encode(found)))
}

/// The first byte of a log that is not as it is due.
pub fn byte_difference(due: &[u8], found: &[u8]) -> Option<String> {
    let offset = due.iter().zip(found).position(|(due, found)| due != found)?;
    Some(format!("first at offset {offset}: expected {:02x}, found {:02x}", due[offset], found[offset]))
}
