//! Composites: made from a list of units, joined and split.

use crate::refusal::{
    BYTES_LEFT_OVER, COMPOSITE_OR_ID_IN_LIST, HEADER_NOT_PERMITTED, MAIN_TYPE_TWICE, NO_DATA_OR_INSTANCE, SUBTYPES_DIFFER,
    UNIT_NOT_OF_64_BITS,
};
use crate::unit::{self, Item, CONTENT, DATA, ID, INSTANCE, ISCC, META, SEMANTIC};
use crate::{demand, fitted, Answer};

/// The order of the bodies, each with the value that it adds to the length number.
const ORDER: [(u32, u32); 5] = [(META, 4), (SEMANTIC, 2), (CONTENT, 1), (DATA, 0), (INSTANCE, 0)];

fn find(items: &[Item], main_type: u32) -> Option<&Item> {
    items.iter().find(|item| item.main_type() == main_type)
}

/// The composite that two or more items make: tests 10 to 14, each over the whole list before the next.
pub fn from_list(items: &[Item]) -> Answer<Item> {
    let count = |main_type| items.iter().filter(|item| item.main_type() == main_type).count();
    demand(items.iter().all(|item| item.main_type() < ISCC), COMPOSITE_OR_ID_IN_LIST)?;
    demand(items.iter().all(|item| item.body.len() == 8), UNIT_NOT_OF_64_BITS)?;
    demand(ORDER.iter().all(|&(main_type, _)| count(main_type) < 2), MAIN_TYPE_TWICE)?;
    demand(count(DATA) == 1 && count(INSTANCE) == 1, NO_DATA_OR_INSTANCE)?;
    let typed: Vec<u32> = [SEMANTIC, CONTENT].iter().filter_map(|&t| find(items, t)).map(Item::subtype).collect();
    demand(typed.windows(2).all(|two| two[0] == two[1]), SUBTYPES_DIFFER)?;

    let units: Vec<(&Item, u32)> = ORDER.iter().filter_map(|&(t, adds)| Some((find(items, t)?, adds))).collect();
    let length = units.iter().map(|&(_, adds)| adds).sum();
    let alone = if length == 0 { 5 } else { 6 };
    let subtype = *typed.first().unwrap_or(&alone);
    let body = units.iter().flat_map(|(unit, _)| unit.body.clone()).collect();
    Ok(Item { header: [ISCC, subtype, 0, length], body })
}

/// The units of a composite in its order: each of 128 bits where it is wide, else of 64.
fn units(composite: &Item) -> Vec<Item> {
    let length = composite.header[3];
    let bits = unit::bits_of_unit(composite.subtype());
    let present = ORDER.iter().filter(|&&(_, adds)| adds == 0 || length & adds != 0);
    let unit = |(&(main_type, _), body): (&(u32, u32), &[u8])| {
        let subtype = if matches!(main_type, SEMANTIC | CONTENT) { composite.subtype() } else { 0 };
        Item { header: [main_type, subtype, 0, bits / 32 - 1], body: body.to_vec() }
    };
    present.zip(composite.body.chunks(bits as usize / 8)).map(unit).collect()
}

/// Join: 7 to 9 from the left; for one item 10 or 13, for more 10 to 14; then 15.
pub fn join(bytes: &[u8], area: usize) -> Answer<Vec<u8>> {
    let items = unit::read_all(bytes)?;
    if items.len() == 1 {
        demand(!matches!(items[0].main_type(), ISCC | ID), COMPOSITE_OR_ID_IN_LIST)?;
        return Err(NO_DATA_OR_INSTANCE);
    }
    fitted(from_list(&items)?.bytes(), area)
}

/// Split: 7, 8, 9, then 19, then 8 for anything but a composite, then 15.
pub fn split(bytes: &[u8], area: usize) -> Answer<Vec<u8>> {
    let (item, used) = unit::read(bytes)?;
    demand(used == bytes.len(), BYTES_LEFT_OVER)?;
    demand(item.main_type() == ISCC, HEADER_NOT_PERMITTED)?;
    fitted(units(&item).iter().flat_map(Item::bytes).collect(), area)
}
