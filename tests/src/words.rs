//! The words that a program of the tests is given.

use std::process::exit;
use std::str::FromStr;
use std::time::{SystemTime, UNIX_EPOCH};

/// The words of the command line, and how they are to be.
pub struct Words {
    left: std::iter::Skip<std::env::Args>,
    usage: &'static str,
}

impl Words {
    /// The words that this program is given.
    pub fn given(usage: &'static str) -> Words {
        let left = std::env::args().skip(1);
        Words { left, usage }
    }

    /// What a word stands for; another word ends the run.
    fn read<T: FromStr>(&self, word: &str) -> T {
        word.parse().unwrap_or_else(|_| self.refuse())
    }

    /// Says how the words are to be, and ends the run.
    fn refuse(&self) -> ! {
        eprintln!("usage: {}", self.usage);
        exit(2);
    }

    /// The next word, which must be there.
    pub fn next<T: FromStr>(&mut self) -> T {
        match self.left.next() {
            Some(word) => self.read(&word),
            None => self.refuse(),
        }
    }

    /// The words that are left, of which there must be one.
    pub fn rest(self) -> Vec<String> {
        if self.left.len() == 0 {
            self.refuse();
        }
        self.left.collect()
    }

    /// The next word as a seed, or one from the clock if there is none; it is printed.
    pub fn seed(&mut self) -> u64 {
        let seed = match self.left.next() {
            Some(word) => self.read(&word),
            None => SystemTime::now()
                .duration_since(UNIX_EPOCH)
                .expect("the clock is after 1970")
                .as_nanos() as u64,
        };
        println!("seed {seed}");
        seed
    }
}
