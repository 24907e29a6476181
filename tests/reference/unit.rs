//! Permitted headers with their body lengths; single units; items laid end to end.

use crate::header::{self, Header};
use crate::refusal::{BODY_TOO_SHORT, HEADER_NOT_PERMITTED};
use crate::{demand, fitted, Answer};

pub const META: u32 = 0;
pub const SEMANTIC: u32 = 1;
pub const CONTENT: u32 = 2;
pub const DATA: u32 = 3;
pub const INSTANCE: u32 = 4;
pub const ISCC: u32 = 5;
pub const ID: u32 = 6;

/// The subtype of a wide composite.
pub const WIDE: u32 = 7;

/// One unit or composite.
#[derive(Clone, Debug)]
pub struct Item {
    pub header: Header,
    pub body: Vec<u8>,
}

impl Item {
    pub fn main_type(&self) -> u32 {
        self.header[0]
    }

    pub fn subtype(&self) -> u32 {
        self.header[1]
    }

    pub fn bytes(&self) -> Vec<u8> {
        [header::encode(self.header), self.body.clone()].concat()
    }
}

/// The body's bytes under a header, where the header is permitted.
pub fn body_length([main_type, subtype, version, length]: Header) -> Option<usize> {
    let last_subtype = match main_type {
        META | DATA | INSTANCE => 0,
        SEMANTIC | CONTENT => 4,
        ID => 5,
        ISCC => return composite_length(subtype, version, length),
        _ => return None,
    };
    let last_length = if main_type == ID { 4 } else { 7 };
    if subtype > last_subtype || version != 0 || length > last_length {
        return None;
    }
    let bits = if main_type == ID { 64 + length * 8 } else { (length + 1) * 32 };
    Some(bits as usize / 8)
}

/// The same of a composite: DATA, INSTANCE and a unit for each one bit of the length number.
fn composite_length(subtype: u32, version: u32, length: u32) -> Option<usize> {
    let permitted = match length {
        0 => matches!(subtype, 5 | WIDE),
        4 => subtype == 6,
        1..=7 => subtype <= 4,
        _ => false,
    };
    let bits = (2 + length.count_ones()) * bits_of_unit(subtype);
    (version == 0 && permitted).then_some(bits as usize / 8)
}

/// The bits of each unit in a composite of this subtype.
pub(crate) fn bits_of_unit(subtype: u32) -> u32 {
    if subtype == WIDE {
        128
    } else {
        64
    }
}

/// The reader of one unit or composite: the item and the bytes used, or 7, 8, 9.
pub fn read(bytes: &[u8]) -> Answer<(Item, usize)> {
    let (header, used) = header::read(bytes)?;
    let length = body_length(header).ok_or(HEADER_NOT_PERMITTED)?;
    let body = bytes[used..].get(..length).ok_or(BODY_TOO_SHORT)?.to_vec();
    Ok((Item { header, body }, used + length))
}

/// All items from the left until no byte remains; there is at least one, so that no byte at all is 7.
pub fn read_all(bytes: &[u8]) -> Answer<Vec<Item>> {
    let (first, mut at) = read(bytes)?;
    let mut items = vec![first];
    while at < bytes.len() {
        let (item, used) = read(&bytes[at..])?;
        items.push(item);
        at += used;
    }
    Ok(items)
}

/// The unit writer: 8, 9, 15. A body that is too long is cut.
pub fn write(header: Header, body: &[u8], area: usize) -> Answer<Vec<u8>> {
    demand(header[0] != ISCC, HEADER_NOT_PERMITTED)?;
    let length = body_length(header).ok_or(HEADER_NOT_PERMITTED)?;
    let body = body.get(..length).ok_or(BODY_TOO_SHORT)?.to_vec();
    fitted(Item { header, body }.bytes(), area)
}
