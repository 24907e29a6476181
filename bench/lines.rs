//! The line program on a million lines beside the door alone on the same lines.

use crate::measure::{median, Ratio};
use crate::{inputs, library};
use std::fs::File;
use std::hint::black_box;
use std::io::Write;
use std::process::{Command, Stdio};
use std::time::Instant;

const LINES: usize = 1_000_000;
/// Odd, so that the median is one of them.
const ROUNDS: usize = 5;

/// Nanoseconds a line of the program and of the door, medians of some rounds, and how many times the door's time it takes.
pub fn measure(program: &str, folder: &str) -> (f64, f64, Ratio) {
    let texts = inputs::written();
    let path = format!("{folder}/million_lines");
    let lines: Vec<u8> = texts.iter().cycle().take(LINES).flat_map(|text| text.iter().copied().chain([b'\n'])).collect();
    File::create(&path).and_then(|mut file| file.write_all(&lines)).expect("the input is written");
    let mut times = [Vec::new(), Vec::new()];
    for _ in 0..ROUNDS {
        times[0].push(run(program, &path));
        times[1].push(call_door(&texts));
    }
    let ratio = Ratio::of(&times);
    let [whole, door] = times.map(median);
    (whole, door, ratio)
}

fn run(program: &str, input: &str) -> f64 {
    let start = Instant::now();
    let status = Command::new(program).stdin(File::open(input).unwrap()).stdout(Stdio::null()).status();
    assert!(status.expect("the program starts").success());
    start.elapsed().as_nanos() as f64 / LINES as f64
}

fn call_door(texts: &[Vec<u8>]) -> f64 {
    let mut area = [0; 73];
    let start = Instant::now();
    for text in texts.iter().cycle().take(LINES) {
        black_box(library::intake(black_box(text), &mut area));
    }
    start.elapsed().as_nanos() as f64 / LINES as f64
}
