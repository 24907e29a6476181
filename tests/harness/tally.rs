//! Counting checks: a line for each, and a last line with both sums.

use std::fmt::Display;
use std::process::ExitCode;

#[derive(Default)]
pub struct Tally {
    passed: usize,
    failed: usize,
}

impl Tally {
    /// Counts one check and prints its line.
    pub fn check(&mut self, name: &str, passed: bool, detail: impl Display) {
        if passed {
            self.passed += 1;
            println!("ok {name}: {detail}");
        } else {
            self.failed += 1;
            println!("FAILED {name}: {detail}");
        }
    }

    /// Prints the sums; success only where there were checks and none failed.
    pub fn finish(self) -> ExitCode {
        println!("{} passed, {} failed", self.passed, self.failed);
        if self.failed == 0 && self.passed > 0 {
            ExitCode::SUCCESS
        } else {
            ExitCode::FAILURE
        }
    }
}
