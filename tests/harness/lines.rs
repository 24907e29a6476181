//! What the line program wrote against what is due, line by line.

use crate::told::Told;

/// So many bytes of a line are shown.
const MOST_SHOWN: usize = 160;

/// A line as text, with escapes for what does not print, its LF among them.
fn shown(line: Option<&&[u8]>) -> String {
    match line {
        None => "no line".to_string(),
        Some(line) if line.len() <= MOST_SHOWN => line.escape_ascii().to_string(),
        Some(line) => format!("{} (and {} more bytes)", line[..MOST_SHOWN].escape_ascii(), line.len() - MOST_SHOWN),
    }
}

fn lines(bytes: &[u8]) -> Vec<&[u8]> {
    bytes.split_inclusive(|&byte| byte == b'\n').collect()
}

/// Every line whose answer is not the due one, counted from 1.
pub fn differences(input: &[u8], due: &[u8], found: &[u8]) -> Vec<Told> {
    let (input, due, found) = (lines(input), lines(due), lines(found));
    let differing = (0..due.len().max(found.len())).filter(|&index| due.get(index) != found.get(index));
    let told = differing.map(|index| {
        let [line, due, found] = [&input, &due, &found].map(|lines| shown(lines.get(index)));
        let number = index + 1;
        Told {
            whole: format!("\n line {number}: {line}\n  expected {due}\n  found    {found}"),
            brief: format!("\n line {number}: expected {due}, found {found}"),
        }
    });
    told.collect()
}
