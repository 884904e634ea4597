//! Finds a small script that still shows a difference.

use crate::judge::{Difference, History};

/// How many scripts are tried at most.
const TRIES: u32 = 3000;

/// Makes a history smaller as long as it shows a difference.
pub struct Shrinker<F: FnMut(&History) -> Option<Difference>> {
    shows: F,
    tries: u32,
    pub history: History,
    pub difference: Difference,
}

impl<F: FnMut(&History) -> Option<Difference>> Shrinker<F> {
    pub fn new(history: History, difference: Difference, shows: F) -> Self {
        Self {
            shows,
            tries: TRIES,
            history,
            difference,
        }
    }

    /// Keeps a smaller history if it still shows a difference.
    fn keep(&mut self, smaller: History) -> bool {
        if self.tries == 0 {
            return false;
        }
        self.tries -= 1;
        let Some(difference) = (self.shows)(&smaller) else {
            return false;
        };
        self.history = smaller;
        self.history.truncate(difference.at + 1);
        self.difference = difference;
        true
    }

    pub fn shrink(&mut self) {
        self.history.truncate(self.difference.at + 1);
        let mut before = usize::MAX;
        while self.history.len() < before && self.tries > 0 {
            before = self.history.len();
            self.drop_lines();
        }
        while self.lower_a_number() {}
    }

    /// Leaves runs of lines out, long ones first; the first line makes the member.
    fn drop_lines(&mut self) {
        let mut run = self.history.len() / 2;
        while run > 0 {
            let mut at = 1;
            while at < self.history.len() {
                let mut smaller = self.history.clone();
                smaller.drain(at..(at + run).min(smaller.len()));
                if !self.keep(smaller) {
                    at += run;
                }
            }
            run /= 2;
        }
    }

    /// Puts a smaller number in place of one; says whether it found one.
    fn lower_a_number(&mut self) -> bool {
        for line in 0..self.history.len() {
            let words: Vec<_> = self.history[line].split(' ').map(String::from).collect();
            for (i, word) in words.iter().enumerate() {
                let Ok(number) = word.parse::<u64>() else { continue };
                for lower in [0, 1, 2, number / 2, number.saturating_sub(1)] {
                    if lower >= number {
                        continue;
                    }
                    let mut words = words.clone();
                    words[i] = lower.to_string();
                    let mut smaller = self.history.clone();
                    smaller[line] = words.join(" ");
                    if self.keep(smaller) {
                        return true;
                    }
                }
            }
        }
        false
    }
}
