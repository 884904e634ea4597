//! A sample of the Rust's answers, with which the program `recorded` compares ours where there is no Rust.

use crate::{
    judge::{History, parts, theirs},
    ours::{Answers, Ours},
    script::Side,
};
use std::{collections::HashSet, io::Result};

/// How a kind of answer looks: the words of command and answer without their numbers.
fn look(command: &str, answer: &str) -> String {
    let mut look = String::new();
    let mut effects = answer.split(", ");
    // Whether there are one, two or more effects counts, and not how many more.
    for part in [command].into_iter().chain(effects.by_ref().take(3)) {
        look.extend(part.chars().filter(|c| !c.is_ascii_digit()).take(120));
        look.push(';');
    }
    look
}

/// The commands of a history up to where the sides part, with the Rust's answers.
fn answered(history: &History, printed: &str) -> Vec<(String, String)> {
    let mut side = Side::default();
    history
        .iter()
        .zip(Answers::new(printed))
        .take_while(|(command, ours)| !parts(command, ours))
        .map_while(|(command, _)| {
            let answer = theirs(&mut side, command).ok()??;
            Some((command.clone(), answer))
        })
        .collect()
}

/// Histories with answers, until there are enough calls: each shows a look that none before it showed, in as few
/// bytes as there are.
pub fn sample(ours: &Ours, histories: impl Iterator<Item = History>, calls: usize) -> Result<String> {
    let (mut seen, mut text, mut count) = (HashSet::new(), String::new(), 0);
    for history in histories {
        if count >= calls {
            break;
        }
        let script: String = history.iter().flat_map(|line| [line.as_str(), "\n"]).collect();
        let mut answered = answered(&history, &ours.run(&script)?);
        let last = answered
            .iter()
            .rposition(|(command, answer)| seen.insert(look(command, answer)));
        let Some(last) = last else { continue };
        answered.truncate(last + 1);
        count += answered.len();
        for (command, answer) in answered {
            seen.insert(look(&command, &answer));
            text += &format!("> {command}\n{answer}\n");
        }
    }
    Ok(text)
}
