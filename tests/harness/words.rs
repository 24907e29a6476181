//! The words of a command line. What is wrong with them is said in a line on standard error, with status 2.

use std::fmt::Display;
use std::process::exit;
use std::str::FromStr;

pub struct Words {
    usage: &'static str,
    /// The program as it was called.
    pub program: String,
    words: std::vec::IntoIter<String>,
}

impl Words {
    pub fn new(usage: &'static str) -> Words {
        let mut words = std::env::args_os().map(|word| word.to_string_lossy().into_owned());
        let program = words.next().unwrap_or_default();
        Words { usage, program, words: words.collect::<Vec<_>>().into_iter() }
    }

    /// The next word; `--help` prints the usage and ends the program.
    pub fn next_word(&mut self) -> Option<String> {
        let word = self.words.next()?;
        if word == "--help" {
            println!("{}", self.usage);
            exit(0);
        }
        Some(word)
    }

    /// The word behind an option.
    pub fn value(&mut self, option: &str) -> String {
        self.next_word().unwrap_or_else(|| self.refuse(format!("{option} wants another word")))
    }

    /// The number behind an option.
    pub fn number<T: FromStr>(&mut self, option: &str) -> T {
        let word = self.value(option);
        word.parse().unwrap_or_else(|_| self.refuse(format!("{option} wants a number, not '{word}'")))
    }

    pub fn refuse(&self, why: impl Display) -> ! {
        eprintln!("{}: {why}\n{}", self.program, self.usage);
        exit(2);
    }
}
