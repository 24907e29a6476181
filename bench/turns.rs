//! Two sides that take turns within one process.

use std::hint::black_box;
use std::time::{Duration, Instant};

pub fn time(run: impl FnOnce()) -> Duration {
    let start = Instant::now();
    run();
    start.elapsed()
}

/// Runs through the inputs again and again, and answers the time of it. What a call answers is used, so that none can be left
/// out.
pub fn over<T>(inputs: &[Vec<u8>], calls: usize, mut call: impl FnMut(&[u8]) -> T) -> Duration {
    time(|| {
        for input in inputs.iter().cycle().take(calls) {
            black_box(call(black_box(input)));
        }
    })
}

/// How many calls fill a turn. `run` makes as many as it is told, and answers their time.
pub fn calls_in(turn: Duration, mut run: impl FnMut(usize) -> Duration) -> usize {
    let mut calls = 1;
    while run(calls) < turn {
        calls *= 2;
    }
    calls
}

/// Nanoseconds a call of side 0 and of side 1 in each round. `run` makes calls of a side, as many as are said for it, and
/// answers their time. The side that starts changes from round to round.
pub fn in_turns(rounds: usize, calls: [usize; 2], mut run: impl FnMut(usize, usize) -> Duration) -> [Vec<f64>; 2] {
    let mut times = [Vec::new(), Vec::new()];
    for round in 0..rounds {
        for turn in 0..2 {
            let side = (round + turn) % 2;
            let taken = run(side, calls[side]);
            times[side].push(taken.as_nanos() as f64 / calls[side] as f64);
        }
    }
    times
}
