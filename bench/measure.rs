//! The proved and the plain side measured in turns within one run.

use crate::turns::{calls_in, in_turns};
use std::fmt::{Display, Formatter, Result};
use std::time::Duration;

/// Odd, so that the median is one of them.
const ROUNDS: usize = 41;
/// One side runs at least so long in a round, and less than twice as long but for noise.
const TURN: Duration = Duration::from_millis(2);

/// The median of some ratios, and the quartiles: half of the ratios lie between these.
pub struct Ratio {
    pub median: f64,
    quartiles: [f64; 2],
}

/// Nanoseconds a call of both sides, and how many times the plain one's time the proved one takes.
pub struct Figures {
    pub proved: f64,
    pub plain: f64,
    pub ratio: Ratio,
}

impl Ratio {
    /// Of both sides' times in the same rounds.
    pub fn of(times: &[Vec<f64>; 2]) -> Ratio {
        let mut ratios: Vec<f64> = times[0].iter().zip(&times[1]).map(|(one, other)| one / other).collect();
        ratios.sort_by(f64::total_cmp);
        let last = ratios.len() - 1;
        Ratio { median: ratios[last / 2], quartiles: [ratios[last / 4], ratios[last - last / 4]] }
    }
}

impl Display for Ratio {
    fn fmt(&self, text: &mut Formatter) -> Result {
        let [lower, upper] = self.quartiles;
        write!(text, "{:.2} | {lower:.2} .. {upper:.2}", self.median)
    }
}

pub fn median(mut figures: Vec<f64>) -> f64 {
    figures.sort_by(f64::total_cmp);
    figures[figures.len() / 2]
}

/// Each side takes a count of calls to make, and answers their time.
pub fn side_by_side(mut proved: impl FnMut(usize) -> Duration, mut plain: impl FnMut(usize) -> Duration) -> Figures {
    let calls = [calls_in(TURN, &mut proved), calls_in(TURN, &mut plain)];
    let times = in_turns(ROUNDS, calls, |side, calls| if side == 0 { proved(calls) } else { plain(calls) });
    let ratio = Ratio::of(&times);
    let [proved, plain] = times.map(median);
    Figures { proved, plain, ratio }
}
