//! Base32 of RFC 4648 without padding, in lists of bits.

use crate::refusal::{ODD_COUNT, OUTSIDE_ALPHABET, SPARE_BIT_SET};
use crate::{demand, fitted, Answer};

const ALPHABET: &[u8; 32] = b"ABCDEFGHIJKLMNOPQRSTUVWXYZ234567";

fn value(character: u8) -> Option<u8> {
    let capital = character.to_ascii_uppercase();
    ALPHABET.iter().position(|&letter| letter == capital).map(|place| place as u8)
}

/// The lowest `count` bits of `number`, highest first.
fn bits_of(number: u8, count: u32) -> impl Iterator<Item = bool> {
    (0..count).rev().map(move |place| number >> place & 1 == 1)
}

fn number_of(bits: &[bool]) -> u8 {
    bits.iter().fold(0, |number, &bit| number << 1 | bit as u8)
}

/// The bytes of a text: tests 4, 5, 6.
pub fn decode(text: &[u8]) -> Answer<Vec<u8>> {
    demand(text.iter().all(|&c| value(c).is_some()), OUTSIDE_ALPHABET)?;
    demand(!matches!(text.len() % 8, 1 | 3 | 6), ODD_COUNT)?;
    let bits: Vec<bool> = text.iter().flat_map(|&c| bits_of(value(c).unwrap(), 5)).collect();
    let whole = bits.len() / 8 * 8;
    demand(bits[whole..].iter().all(|&bit| !bit), SPARE_BIT_SET)?;
    Ok(bits[..whole].chunks(8).map(number_of).collect())
}

/// The capital text of some bytes; the last character is filled up with zero bits.
pub fn encode(bytes: &[u8]) -> Vec<u8> {
    let mut bits: Vec<bool> = bytes.iter().flat_map(|&byte| bits_of(byte, 8)).collect();
    bits.resize(bits.len().next_multiple_of(5), false);
    bits.chunks(5).map(|five| ALPHABET[number_of(five) as usize]).collect()
}

/// The base32 reader: 4, 5, 6, then 15.
pub fn read(text: &[u8], area: usize) -> Answer<Vec<u8>> {
    fitted(decode(text)?, area)
}

/// The base32 writer: only 15.
pub fn write(bytes: &[u8], area: usize) -> Answer<Vec<u8>> {
    fitted(encode(bytes), area)
}
