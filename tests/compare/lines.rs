//! The line program against the reference on random inputs.

use crate::random::Random;
use crate::texts;
use harness::tally::Tally;
use std::io::{self, Write};
use std::ops::Range;
use std::process::{Command, Stdio};

pub const INPUTS: u64 = 40;

/// Texts, each with an LF behind it but perhaps the last; some are far longer than any buffer.
fn input(random: &mut Random) -> Vec<u8> {
    let mut bytes = Vec::new();
    for _ in 0..random.below(800) {
        bytes.extend(texts::text(random));
        if random.percent(1) {
            let length = random.below(70_000);
            bytes.resize(bytes.len() + length, random.pick(b" A-\0"));
        }
        bytes.push(b'\n');
    }
    if random.percent(50) {
        bytes.pop();
    }
    bytes
}

fn output(program: &str, input: &[u8]) -> io::Result<Vec<u8>> {
    let mut child = Command::new(program).stdin(Stdio::piped()).stdout(Stdio::piped()).spawn()?;
    let mut stdin = child.stdin.take().expect("a pipe");
    let bytes = input.to_vec();
    // A program that stops reading breaks the pipe: its output then tells.
    let writer = std::thread::spawn(move || stdin.write_all(&bytes));
    let output = child.wait_with_output()?;
    let _ = writer.join();
    if !output.status.success() {
        return Err(io::Error::other(output.status.to_string()));
    }
    Ok(output.stdout)
}

/// The first line whose answers differ.
fn difference(program: &str, input: &[u8]) -> Option<String> {
    let due = reference::lines::answers(input);
    let found = match output(program, input) {
        Ok(found) => found,
        Err(error) => return Some(error.to_string()),
    };
    let bad = harness::lines::differences(input, &due, &found);
    bad.first().map(|first| format!("{} lines differ, first{}", bad.len(), first.whole))
}

/// Compares the inputs of a range; each that differs is told, with the command that runs it again.
pub fn check(tally: &mut Tally, program: &str, seed: u64, range: Range<u64>, again: &str) {
    let (inputs, mut lines, mut differences) = (range.end - range.start, 0, Vec::new());
    for case in range {
        let input = input(&mut Random::of_case(seed, u64::MAX, case));
        if let Some(difference) = difference(program, &input) {
            differences.push(format!("\n input {case}: {difference}\n  run again: {again} lines {case}"));
        }
        lines += reference::lines::answers(&input).iter().filter(|&&byte| byte == b'\n').count();
    }
    let detail = match differences.is_empty() {
        true => format!("{inputs} inputs, {lines} lines, no difference"),
        false => format!("{} of {inputs} inputs{}", differences.len(), differences.concat()),
    };
    tally.check("compare lines", differences.is_empty(), detail);
}
