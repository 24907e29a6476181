//! Reading text at intake; the intake door and the strict door.

use crate::refusal::{AREA_TOO_SHORT, BYTES_LEFT_OVER, NOTHING_LEFT, NOT_THE_WRITTEN_TEXT, RUN_TOO_LONG, TEXT_TOO_LONG};
use crate::{base32, composite, demand, unit, Answer};

const SCHEME: &[u8] = b"ISCC:";

/// The longest text that intake writes: the scheme and 68 characters.
pub const LONGEST_WRITTEN: usize = 73;

/// The longest code: a composite of all five units.
pub const LONGEST_CODE: usize = 42;

fn is_blank(byte: u8) -> bool {
    matches!(byte, b' ' | b'\t' | b'\r' | b'\n')
}

fn trimmed(text: &[u8]) -> &[u8] {
    let Some(first) = text.iter().position(|&byte| !is_blank(byte)) else {
        return &[];
    };
    let last = text.iter().rposition(|&byte| !is_blank(byte)).unwrap();
    &text[first..=last]
}

/// Without blanks at both ends, then without one scheme, then without hyphens.
fn cleaned(text: &[u8]) -> Vec<u8> {
    let text = trimmed(text);
    let has_scheme = text.len() >= SCHEME.len() && text[..SCHEME.len()].eq_ignore_ascii_case(SCHEME);
    let behind = if has_scheme { &text[SCHEME.len()..] } else { text };
    behind.iter().copied().filter(|&byte| byte != b'-').collect()
}

/// The bytes of the one unit or composite that a text means: tests 2, 1, 3 to 14.
pub(crate) fn code_bytes(text: &[u8]) -> Answer<Vec<u8>> {
    demand(text.len() <= 1024, TEXT_TOO_LONG)?;
    let run = cleaned(text);
    demand(!run.is_empty(), NOTHING_LEFT)?;
    demand(run.len() <= 80, RUN_TOO_LONG)?;
    let items = unit::read_all(&base32::decode(&run)?)?;
    let code = if items.len() == 1 { items[0].clone() } else { composite::from_list(&items)? };
    Ok(code.bytes())
}

fn spelt(code: &[u8]) -> Vec<u8> {
    [SCHEME, &base32::encode(code)].concat()
}

/// The text that intake writes for this one.
fn canonical(text: &[u8]) -> Answer<Vec<u8>> {
    Ok(spelt(&code_bytes(text)?))
}

/// The intake door.
pub fn intake(text: &[u8], area: usize) -> Answer<Vec<u8>> {
    demand(area >= LONGEST_WRITTEN, AREA_TOO_SHORT)?;
    canonical(text)
}

/// The strict door.
pub fn strict(text: &[u8]) -> Answer<()> {
    demand(canonical(text)? == text, NOT_THE_WRITTEN_TEXT)
}

/// The code of a text.
pub fn code(text: &[u8], area: usize) -> Answer<Vec<u8>> {
    demand(area >= LONGEST_CODE, AREA_TOO_SHORT)?;
    code_bytes(text)
}

/// The text of a code: exactly one unit or composite.
pub fn text(code: &[u8], area: usize) -> Answer<Vec<u8>> {
    demand(area >= LONGEST_WRITTEN, AREA_TOO_SHORT)?;
    let (_, used) = unit::read(code)?;
    demand(used == code.len(), BYTES_LEFT_OVER)?;
    Ok(spelt(code))
}
