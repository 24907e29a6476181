//! Base32 in groups of eight characters and five bytes through one 64-bit word.

const ALPHABET: [u8; 32] = *b"ABCDEFGHIJKLMNOPQRSTUVWXYZ234567";
const OUTSIDE: u8 = 0x80;

/// The value of each byte as a character, or OUTSIDE.
static VALUES: [u8; 256] = values();

const fn values() -> [u8; 256] {
    let mut table = [OUTSIDE; 256];
    let mut at = 0;
    while at < 32 {
        table[ALPHABET[at] as usize] = at as u8;
        table[ALPHABET[at].to_ascii_lowercase() as usize] = at as u8;
        at += 1;
    }
    table
}

fn value(character: u8) -> u64 {
    VALUES[character as usize] as u64
}

pub fn encoded_length(bytes: usize) -> usize {
    bytes / 5 * 8 + (bytes % 5 * 8).div_ceil(5)
}

/// Tests 4, 5, 6; the count of bytes that the text holds.
pub fn measure(text: &[u8]) -> Result<usize, u32> {
    if text.iter().fold(0, |all, &c| all | VALUES[c as usize]) & OUTSIDE != 0 {
        return Err(4);
    }
    let spare = match text.len() % 8 {
        1 | 3 | 6 => return Err(5),
        2 => 2,
        4 => 4,
        5 => 1,
        7 => 3,
        _ => 0,
    };
    if spare > 0 && value(text[text.len() - 1]) & ((1 << spare) - 1) != 0 {
        return Err(6);
    }
    Ok(text.len() / 8 * 5 + text.len() % 8 * 5 / 8)
}

/// Writes the bytes of a text that `measure` took; the area is just as long.
pub fn decode(text: &[u8], out: &mut [u8]) {
    let mut groups = text.chunks_exact(8);
    let mut fives = out.chunks_exact_mut(5);
    for (eight, five) in groups.by_ref().zip(fives.by_ref()) {
        let word = eight.iter().fold(0, |word, &c| word << 5 | value(c));
        five.copy_from_slice(&word.to_be_bytes()[3..]);
    }
    let rest = groups.remainder();
    let word = rest.iter().fold(0, |word, &c| word << 5 | value(c)) << (40 - 5 * rest.len());
    let last = fives.into_remainder();
    last.copy_from_slice(&word.to_be_bytes()[3..3 + last.len()]);
}

/// Writes the text of some bytes; the area is just as long.
pub fn encode(bytes: &[u8], out: &mut [u8]) {
    let mut groups = bytes.chunks_exact(5);
    let mut eights = out.chunks_exact_mut(8);
    for (five, eight) in groups.by_ref().zip(eights.by_ref()) {
        let word = five.iter().fold(0, |word, &byte| word << 8 | byte as u64);
        for (at, c) in eight.iter_mut().enumerate() {
            *c = ALPHABET[(word >> (35 - 5 * at) & 31) as usize];
        }
    }
    let rest = groups.remainder();
    let word = rest.iter().fold(0, |word, &byte| word << 8 | byte as u64) << (40 - 8 * rest.len());
    for (at, c) in eights.into_remainder().iter_mut().enumerate() {
        *c = ALPHABET[(word >> (35 - 5 * at) & 31) as usize];
    }
}

#[inline(never)]
pub fn base32_read(text: &[u8], out: &mut [u8]) -> (u32, usize) {
    match measure(text) {
        Err(number) => (number, 0),
        Ok(length) if length > out.len() => (15, 0),
        Ok(length) => {
            decode(text, &mut out[..length]);
            (0, length)
        }
    }
}

#[inline(never)]
pub fn base32_write(bytes: &[u8], out: &mut [u8]) -> (u32, usize) {
    let length = encoded_length(bytes.len());
    if length > out.len() {
        return (15, 0);
    }
    encode(bytes, &mut out[..length]);
    (0, length)
}
