//! The distance between two units.

use crate::refusal::{BYTES_LEFT_OVER, NO_DISTANCE};
use crate::unit::{self, Item, DATA};
use crate::{demand, Answer};

#[derive(Clone, Copy, Debug)]
pub struct Distance {
    pub d: u32,
    pub n: u32,
    pub ratio: f32,
}

fn only_item(bytes: &[u8]) -> Answer<Item> {
    let (item, used) = unit::read(bytes)?;
    demand(used == bytes.len(), BYTES_LEFT_OVER)?;
    Ok(item)
}

/// 7, 8, 9, 19 on the first, the same on the second, then 18.
pub fn distance(a: &[u8], b: &[u8]) -> Answer<Distance> {
    let (a, b) = (only_item(a)?, only_item(b)?);
    let comparable = a.main_type() <= DATA && a.main_type() == b.main_type() && a.subtype() == b.subtype();
    demand(comparable, NO_DISTANCE)?;
    let n = 8 * a.body.len().min(b.body.len()) as u32;
    let d = a.body.iter().zip(&b.body).map(|(x, y)| (x ^ y).count_ones()).sum();
    Ok(Distance { d, n, ratio: d as f32 / n as f32 })
}
