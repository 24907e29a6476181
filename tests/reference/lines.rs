//! The line program: one answer line for each line.

use crate::doors::{intake, LONGEST_WRITTEN};

/// The whole output for a whole input.
pub fn answers(input: &[u8]) -> Vec<u8> {
    let mut lines: Vec<&[u8]> = input.split(|&byte| byte == b'\n').collect();
    // What stands behind the last LF is a line only if there is something.
    if lines.last().is_some_and(|line| line.is_empty()) {
        lines.pop();
    }
    lines.into_iter().flat_map(answer).collect()
}

fn answer(line: &[u8]) -> Vec<u8> {
    match intake(line, LONGEST_WRITTEN) {
        Ok(text) => [&text[..], b"\n"].concat(),
        Err(number) => format!("refused {number}\n").into_bytes(),
    }
}
