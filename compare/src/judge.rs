//! Whether both sides give the same answers to a history.

use crate::script::{Side, Unanswered};
use std::panic::{AssertUnwindSafe, catch_unwind};

/// A script that makes one member, command by command.
pub type History = Vec<String>;

/// The first command that the sides answer otherwise.
#[derive(Debug)]
pub struct Difference {
    pub at: usize,
    pub ours: String,
    pub theirs: String,
}

/// What came of comparing.
#[derive(Clone, Copy, Default)]
pub struct Counts {
    pub histories: u64,
    pub calls: u64,
    pub lines: u64,
    /// Histories that ended at a refusal of ours that the Rust has not.
    pub cut: u64,
    pub refusals: u64,
    pub differences: u64,
}

impl Counts {
    pub fn add(&mut self, other: &Self) {
        self.histories += other.histories;
        self.calls += other.calls;
        self.lines += other.lines;
        self.cut += other.cut;
        self.refusals += other.refusals;
        self.differences += other.differences;
    }
}

/// Whether an answer of ours has a refusal without a counterpart, past which the states are no longer the same.
pub fn parts(command: &str, answer: &str) -> bool {
    answer.lines().any(|line| {
        let Some((_, refusal)) = line.rsplit_once("refused ") else {
            return false;
        };
        match refusal.split(' ').next() {
            Some("5" | "6" | "7" | "12") => true,
            // A delivery without asks cannot be written in the Rust; one with too many can.
            Some("10") => command.split(' ').nth(2) != Some("-"),
            _ => false,
        }
    })
}

/// What the Rust answers, or how it stops.
pub fn theirs(side: &mut Side, command: &str) -> Result<Option<String>, Unanswered> {
    catch_unwind(AssertUnwindSafe(|| side.answer(command))).unwrap_or_else(|panic| {
        let words = panic
            .downcast_ref::<String>()
            .map(String::as_str)
            .or(panic.downcast_ref::<&str>().copied())
            .unwrap_or("");
        Ok(Some(format!("panics: {words}")))
    })
}

/// Compares the answers of ours to a history with those of the Rust.
pub fn compare<'a>(
    history: &History,
    ours: &mut impl Iterator<Item = &'a str>,
    counts: &mut Counts,
) -> Option<Difference> {
    let mut side = Side::default();
    let mut together = true;
    let mut found = None;
    counts.histories += 1;
    for (at, command) in history.iter().enumerate() {
        let answer = ours.next().unwrap_or("nothing");
        if !together {
            continue;
        }
        counts.calls += 1;
        if parts(command, answer) {
            // A question about terms leaves both sides as they were.
            if !command.starts_with("term ") {
                together = false;
                counts.cut += 1;
            }
            continue;
        }
        counts.refusals += u64::from(answer.starts_with("refused "));
        let theirs = theirs(&mut side, command);
        let theirs = theirs.map_or("no answer".into(), Option::unwrap_or_default);
        counts.lines += theirs.lines().count() as u64;
        if answer != theirs {
            counts.differences += 1;
            found = Some(Difference {
                at,
                ours: answer.into(),
                theirs,
            });
            together = false;
        }
    }
    found
}
