//! Both doors over local arrays.

use crate::base32;
use crate::items;
use crate::join::{compose, read_list};

const SCHEME: &[u8; 5] = b"ISCC:";
const LONGEST: usize = 73;
pub const LONGEST_CODE: usize = 42;

fn is_blank(byte: &u8) -> bool {
    matches!(byte, b' ' | b'\t' | b'\r' | b'\n')
}

fn trimmed(mut text: &[u8]) -> &[u8] {
    while let [first, rest @ ..] = text {
        if !is_blank(first) {
            break;
        }
        text = rest;
    }
    while let [rest @ .., last] = text {
        if !is_blank(last) {
            break;
        }
        text = rest;
    }
    text
}

/// The characters behind blanks, scheme and hyphens: 1 and 3.
fn clean(text: &[u8], run: &mut [u8; 80]) -> Result<usize, u32> {
    let text = trimmed(text);
    let behind = match text.split_at_checked(5) {
        Some((head, rest)) if head.eq_ignore_ascii_case(SCHEME) => rest,
        _ => text,
    };
    let mut count = 0;
    for &byte in behind {
        if byte != b'-' {
            *run.get_mut(count).ok_or(3u32)? = byte;
            count += 1;
        }
    }
    if count == 0 {
        return Err(1);
    }
    Ok(count)
}

/// A code and how many bytes it has.
pub struct Code {
    pub bytes: [u8; LONGEST_CODE],
    pub length: usize,
}

impl Code {
    fn bytes(&self) -> &[u8] {
        &self.bytes[..self.length]
    }
}

/// The code that a text holds.
pub fn code_of(text: &[u8]) -> Result<Code, u32> {
    if text.len() > 1024 {
        return Err(2);
    }
    let mut run = [0; 80];
    let count = clean(text, &mut run)?;
    let length = base32::measure(&run[..count])?;
    let mut bytes = [0; 50];
    base32::decode(&run[..count], &mut bytes[..length]);
    let list = read_list(&bytes[..length])?;
    let mut code = Code { bytes: [0; LONGEST_CODE], length };
    if list.count == 1 {
        code.bytes[..length].copy_from_slice(&bytes[..length]);
    } else {
        code.length = compose(&list, &mut code.bytes)?;
    }
    Ok(code)
}

fn spell(code: &[u8], out: &mut [u8]) -> usize {
    let end = 5 + base32::encoded_length(code.len());
    out[..5].copy_from_slice(SCHEME);
    base32::encode(code, &mut out[5..end]);
    end
}

#[inline(never)]
pub fn intake(text: &[u8], out: &mut [u8]) -> (u32, usize) {
    if out.len() < LONGEST {
        return (15, 0);
    }
    code_of(text).map_or_else(|number| (number, 0), |code| (0, spell(code.bytes(), out)))
}

#[inline(never)]
pub fn strict(text: &[u8]) -> u32 {
    let code = match code_of(text) {
        Err(number) => return number,
        Ok(code) => code,
    };
    let mut written = [0; LONGEST];
    let length = spell(code.bytes(), &mut written);
    if written[..length] == *text {
        0
    } else {
        16
    }
}

#[inline(never)]
pub fn code(text: &[u8], out: &mut [u8]) -> (u32, usize) {
    if out.len() < LONGEST_CODE {
        return (15, 0);
    }
    match code_of(text) {
        Err(number) => (number, 0),
        Ok(code) => {
            out[..code.length].copy_from_slice(code.bytes());
            (0, code.length)
        }
    }
}

#[inline(never)]
pub fn text(code: &[u8], out: &mut [u8]) -> (u32, usize) {
    if out.len() < LONGEST {
        return (15, 0);
    }
    match items::read(code) {
        Err(number) => (number, 0),
        Ok(item) if item.used() < code.len() => (19, 0),
        Ok(_) => (0, spell(code, out)),
    }
}
