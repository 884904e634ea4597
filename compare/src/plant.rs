//! Wrong answers, put in place of ours, to show that a wrong answer is seen.

/// Turns an answer to a command wrong, or leaves it where the fault does not show.
pub type Fault = fn(command: &str, answer: &str) -> Option<String>;

pub const FAULTS: [(&str, Fault); 14] = [
    ("the last effect is left out", |command, answer| {
        let shorter = &answer[..answer.rfind(", ")?];
        (command.starts_with("updated") && answer.starts_with("ok")).then(|| shorter.into())
    }),
    ("two effects change places", |command, answer| {
        let (first, second) = answer.strip_prefix("ok ")?.split_once(", ")?;
        let two = !second.contains(',') && command.starts_with("updated");
        two.then(|| format!("ok {second}, {first}"))
    }),
    ("a fetch at the next view", |_, answer| {
        let (before, view, after) = number_behind(answer, "fetch ")?;
        Some(format!("{before}{}{after}", view + 1))
    }),
    ("a fetch with another cause", |_, answer| {
        let swapped = answer.replacen("missing_nullification", "certification_failed", 1);
        (swapped != answer).then_some(swapped)
    }),
    ("an open ask is missing", |command, answer| {
        (command == "asks").then(|| answer.split_once(", ").map(|(_, rest)| rest.into()))?
    }),
    ("a target is forgotten", |command, answer| {
        let (before, _, after) = number_behind(answer, " notarization ")?;
        (command == "asks").then(|| format!("{}{after}", &before[..before.len() - 1]))
    }),
    ("the last served byte", |command, answer| {
        let turned = if answer.ends_with('0') { '1' } else { '0' };
        let served = command.starts_with("produce") && answer != "none";
        served.then(|| format!("{}{turned}", &answer[..answer.len() - 1]))
    }),
    ("nothing served at a high view", |command, answer| {
        let view: u64 = command.strip_prefix("produce ")?.parse().ok()?;
        (view > 1 << 32 && answer != "none").then(|| "none".into())
    }),
    ("complete in place of partial", |_, answer| {
        Some(format!("complete{}", answer.strip_prefix("partial")?))
    }),
    ("a record taken and not told", |_, answer| {
        answer
            .contains(" taken ")
            .then(|| answer.replace(" taken ", " not taken "))
    }),
    ("let go as complete", |_, answer| {
        Some(format!("complete{}", answer.strip_prefix("let go")?))
    }),
    ("the cursor one too far", |command, answer| {
        let (before, view, after) = number_behind(answer, "cursor ")?;
        (command == "state" && view > 20).then(|| format!("{before}{}{after}", view + 1))
    }),
    ("a waiting message uncounted", |_, answer| {
        let (before, others, after) = number_behind(answer, "waiting 1 ")?;
        Some(format!("{before}{}{after}", others.checked_sub(1)?))
    }),
    ("two drained messages change places", |_, answer| {
        let mut lines: Vec<_> = answer.lines().collect();
        (lines.len() == 3 && lines[1] != lines[2]).then(|| {
            lines.swap(1, 2);
            lines.join("\n")
        })
    }),
];

/// The first number behind some words, with what stands before and behind it.
fn number_behind<'a>(answer: &'a str, words: &str) -> Option<(&'a str, u64, &'a str)> {
    let from = answer.find(words)? + words.len();
    let rest = &answer[from..];
    let to = from + rest.find(|c: char| !c.is_ascii_digit()).unwrap_or(rest.len());
    Some((&answer[..from], answer[from..to].parse().ok()?, &answer[to..]))
}
