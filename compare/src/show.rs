//! Scripts that are given, and their answers on both sides.

use crate::ours::{Answers, Ours};
use std::{
    env, fs,
    io::{Result, Write},
    path::{Path, PathBuf},
    process::{Command, Stdio},
    thread,
};

/// The commands of a script.
fn commands(script: &str) -> Vec<&str> {
    let lines = script
        .lines()
        .map(|line| line.split('#').next().unwrap_or("").trim());
    lines.filter(|line| !line.is_empty()).collect()
}

/// What the Rust prints for a script. It may go on without end, or take all memory, so it is stopped after a while.
fn theirs(script: &str) -> Result<String> {
    let mut child = Command::new("sh")
        .arg("-c")
        .arg("ulimit -v 2000000; exec timeout 5 \"$0\" - --answer")
        .arg(env::current_exe()?)
        .stdin(Stdio::piped())
        .stdout(Stdio::piped())
        .stderr(Stdio::null())
        .spawn()?;
    let mut input = child.stdin.take().expect("standard input is piped");
    let output = thread::scope(|scope| {
        // It may stop before it has read all.
        scope.spawn(move || input.write_all(script.as_bytes()));
        child.wait_with_output()
    })?;
    Ok(String::from_utf8_lossy(&output.stdout).into_owned())
}

/// Shows the answers of both sides to each command of a script.
pub fn both(ours: &Ours, path: &Path) -> Result<()> {
    let script = fs::read_to_string(path)?;
    let (printed, answered) = (ours.run(&script)?, theirs(&script)?);
    let mut theirs = Answers::new(&answered);
    for (command, ours) in commands(&script).into_iter().zip(Answers::new(&printed)) {
        let theirs = theirs.next().unwrap_or("no answer");
        println!("{command}\n    ours:     {ours}");
        if ours == theirs {
            println!("    the Rust: the same");
        } else {
            println!("    the Rust: {theirs}");
        }
    }
    Ok(())
}

/// A long answer, cut.
fn short(answer: &str) -> String {
    const MOST: usize = 100;
    if answer.len() <= MOST {
        answer.into()
    } else {
        format!("{} …", &answer[..MOST])
    }
}

/// The last command of each script in a folder, and both answers: there they differ.
pub fn differences(ours: &Ours, folder: &Path) -> Result<String> {
    let mut paths: Vec<PathBuf> = fs::read_dir(folder)?
        .map(|entry| Ok(entry?.path()))
        .collect::<Result<_>>()?;
    paths.retain(|path| path.extension().is_some_and(|it| it == "in"));
    paths.sort();
    let mut table = String::new();
    for path in paths {
        let script = fs::read_to_string(&path)?;
        let (printed, answered) = (ours.run(&script)?, theirs(&script)?);
        let commands = commands(&script);
        let (last, before) = commands.split_last().expect("a script has a command");
        let ours: Vec<_> = Answers::new(&printed).collect();
        let theirs: Vec<_> = Answers::new(&answered).collect();
        let alike = ours[..before.len()] == theirs[..before.len().min(theirs.len())];
        let theirs = theirs
            .get(before.len())
            .copied()
            .unwrap_or("no answer within 5 s and 2 GB");
        let name = path.file_stem().unwrap_or_default().to_string_lossy();
        table += &format!(
            "{name}\n    commands before: {}, {}\n    {last}\n    ours:     {}\n    the Rust: {}\n",
            before.len(),
            if alike {
                "answered alike"
            } else {
                "ANSWERED OTHERWISE"
            },
            short(ours[before.len()]),
            short(theirs),
        );
    }
    Ok(table)
}
