//! Byte strings in lower-case hex, the empty one as `-`.

pub fn encode(bytes: &[u8]) -> String {
    if bytes.is_empty() {
        return "-".to_string();
    }
    bytes.iter().map(|byte| format!("{byte:02x}")).collect()
}

/// As `encode`, but of a long string only the beginning: a mebibyte helps nobody to read on.
pub fn shown(bytes: &[u8]) -> String {
    const MOST: usize = 4096;
    match bytes.len().checked_sub(MOST) {
        None | Some(0) => encode(bytes),
        Some(more) => format!("{}(and {more} more bytes)", encode(&bytes[..MOST])),
    }
}

pub fn decode(text: &str) -> Option<Vec<u8>> {
    if text == "-" {
        return Some(Vec::new());
    }
    if text.is_empty() || text.len() % 2 == 1 || !text.is_ascii() {
        return None;
    }
    (0..text.len()).step_by(2).map(|at| u8::from_str_radix(&text[at..at + 2], 16).ok()).collect()
}
