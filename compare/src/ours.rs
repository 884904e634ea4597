//! The program member, run on scripts.

use std::{
    io::{Error, Read, Result, Write},
    path::PathBuf,
    process::{Command, Stdio},
    thread,
};

/// Where the program stands.
#[derive(Clone)]
pub struct Ours(pub PathBuf);

impl Ours {
    /// What the program prints for a script.
    pub fn run(&self, script: &str) -> Result<String> {
        let mut child = Command::new(&self.0)
            .stdin(Stdio::piped())
            .stdout(Stdio::piped())
            .stderr(Stdio::null())
            .spawn()?;
        let (mut input, mut output) = (
            child.stdin.take().expect("standard input is piped"),
            child.stdout.take().expect("standard output is piped"),
        );
        let mut printed = String::new();
        thread::scope(|scope| -> Result<()> {
            let writing = scope.spawn(move || input.write_all(script.as_bytes()));
            output.read_to_string(&mut printed)?;
            writing.join().map_err(|_| Error::other("writing failed"))?
        })?;
        let status = child.wait()?;
        if status.success() {
            Ok(printed)
        } else {
            Err(Error::other(format!(
                "member ended with {status}; its output ends in {:?}",
                tail(&printed)
            )))
        }
    }
}

fn tail(printed: &str) -> &str {
    printed.lines().last().unwrap_or("")
}

/// The answers in what was printed, one after the other. A drain has several lines.
pub struct Answers<'a>(std::str::Lines<'a>, &'a str);

impl<'a> Answers<'a> {
    pub fn new(printed: &'a str) -> Self {
        Self(printed.lines(), printed)
    }
}

impl<'a> Iterator for Answers<'a> {
    type Item = &'a str;

    fn next(&mut self) -> Option<&'a str> {
        let first = self.0.next()?;
        let more = first
            .strip_prefix("drained ")
            .and_then(|count| count.parse().ok())
            .unwrap_or(0);
        let last = (0..more).fold(Some(first), |_, _| self.0.next())?;
        let from = first.as_ptr().addr() - self.1.as_ptr().addr();
        let to = last.as_ptr().addr() + last.len() - self.1.as_ptr().addr();
        Some(&self.1[from..to])
    }
}
