//! Varnibbles and raw headers.

use crate::refusal::{BROKEN_HEADER, NUMBER_TOO_LARGE};
use crate::{demand, fitted, Answer};

/// The first number of each row of the table, and the first past the last row.
const FIRST: [u32; 5] = [0, 8, 72, 584, 4680];

/// Main type, subtype, version and length number.
pub type Header = [u32; 4];

/// A number as 1 to 4 nibbles: a one for each nibble but the first, a zero, then the data bits.
fn nibbles_of(number: u32) -> Vec<u8> {
    let row = (0..4).find(|&row| number < FIRST[row + 1]).expect("a number up to 4679");
    let prefix = [0b0, 0b10, 0b110, 0b1110][row];
    let word = prefix << (3 * (row + 1)) | (number - FIRST[row]);
    (0..=row).rev().map(|place| (word >> (4 * place) & 15) as u8).collect()
}

/// The number at the head of some nibbles, and how many nibbles it takes; none where they are cut or start with 1111.
fn number_at(nibbles: &[u8]) -> Option<(u32, usize)> {
    let row = (*nibbles.first()? << 4).leading_ones() as usize;
    if row == 4 {
        return None;
    }
    let word = nibbles.get(..row + 1)?.iter().fold(0, |word, &nibble| word << 4 | nibble as u32);
    Some((FIRST[row] + word % (1 << (3 * (row + 1))), row + 1))
}

fn nibbles(bytes: &[u8]) -> Vec<u8> {
    bytes.iter().flat_map(|byte| [byte >> 4, byte & 15]).collect()
}

/// The raw header reader: the four numbers and the bytes used, or 7.
pub fn read(bytes: &[u8]) -> Answer<(Header, usize)> {
    let all = nibbles(&bytes[..bytes.len().min(8)]);
    let mut header = [0; 4];
    let mut at = 0;
    for number in &mut header {
        let (value, taken) = number_at(&all[at..]).ok_or(BROKEN_HEADER)?;
        *number = value;
        at += taken;
    }
    if at % 2 == 1 {
        demand(all[at] == 0, BROKEN_HEADER)?;
        at += 1;
    }
    Ok((header, at / 2))
}

/// The bytes of four numbers up to 4679.
pub fn encode(header: Header) -> Vec<u8> {
    let mut all: Vec<u8> = header.iter().flat_map(|&number| nibbles_of(number)).collect();
    if all.len() % 2 == 1 {
        all.push(0);
    }
    all.chunks(2).map(|pair| pair[0] << 4 | pair[1]).collect()
}

/// The raw header writer: 17, then 15.
pub fn write(header: Header, area: usize) -> Answer<Vec<u8>> {
    demand(header.iter().all(|&number| number < FIRST[4]), NUMBER_TOO_LARGE)?;
    fitted(encode(header), area)
}
