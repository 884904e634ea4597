//! Runs the published sources and the program member on the same scripts, and compares each answer.

mod histories;
mod judge;
mod mixes;
mod ours;
mod plant;
mod random;
mod record;
mod sample;
mod script;
mod show;
mod shrink;
mod speed;
mod steps;

use histories::{FLAVOURS, Short, random as random_history};
use judge::{Counts, Difference, History, compare};
use ours::{Answers, Ours};
use plant::{FAULTS, Fault};
use random::Random;
use script::Side;
use shrink::Shrinker;
use std::{
    env, fs,
    io::{BufRead, Result, Write, stdin, stdout},
    path::{Path, PathBuf},
    process::ExitCode,
    sync::{
        Mutex,
        atomic::{AtomicBool, AtomicU64, Ordering},
    },
    thread,
    time::{Duration, Instant},
};

#[global_allocator]
static BYTES: speed::Counting = speed::Counting;

/// How many random histories are fed to one run of the program.
const BATCH: usize = 1000;

/// All histories of so many commands come first; in a long run, of one more.
const COMMANDS: u32 = 4;
const LONG: u64 = 300;

/// The histories of a run, in batches.
struct Plan {
    seed: u64,
    short: Vec<Short>,
}

impl Plan {
    fn new(seed: u64, seconds: u64) -> Self {
        let more = u32::from(seconds >= LONG);
        Self {
            seed,
            short: Short::all(COMMANDS + more),
        }
    }

    fn batch(&self, number: u64) -> Vec<History> {
        if let Some(short) = self.short.get(number as usize) {
            return short.histories();
        }
        let mut random = Random::new(self.seed.wrapping_add(number.wrapping_mul(0x1000_0001)));
        (0..BATCH)
            .map(|i| random_history(&mut random, FLAVOURS[i % FLAVOURS.len()]))
            .collect()
    }
}

/// Compares histories; the first that differs comes back.
fn compare_all(
    ours: &Ours,
    histories: &[History],
    fault: Option<Fault>,
    counts: &mut Counts,
) -> Result<Option<(History, Difference)>> {
    let script: String = histories
        .iter()
        .flatten()
        .flat_map(|line| [line.as_str(), "\n"])
        .collect();
    let printed = ours.run(&script)?;
    let planted: Vec<String>;
    let mut answers: Box<dyn Iterator<Item = &str>> = match fault {
        None => Box::new(Answers::new(&printed)),
        Some(fault) => {
            planted = histories
                .iter()
                .flatten()
                .zip(Answers::new(&printed))
                .map(|(command, answer)| fault(command, answer).unwrap_or_else(|| answer.into()))
                .collect();
            Box::new(planted.iter().map(String::as_str))
        }
    };
    for history in histories {
        if let Some(difference) = compare(history, &mut answers, counts) {
            return Ok(Some((history.clone(), difference)));
        }
    }
    Ok(None)
}

/// A run of the comparison over several threads.
struct Run<'a> {
    ours: &'a Ours,
    plan: Plan,
    fault: Option<Fault>,
    next: AtomicU64,
    stop: AtomicBool,
    counts: Mutex<Counts>,
    found: Mutex<Option<(History, Difference)>>,
}

impl Run<'_> {
    fn work(&self) -> Result<()> {
        while !self.stop.load(Ordering::Relaxed) {
            let histories = self.plan.batch(self.next.fetch_add(1, Ordering::Relaxed));
            let mut counts = Counts::default();
            let found = compare_all(self.ours, &histories, self.fault, &mut counts)?;
            self.counts.lock().expect("no thread panics").add(&counts);
            if found.is_some() {
                self.stop.store(true, Ordering::Relaxed);
                *self.found.lock().expect("no thread panics") = found;
            }
        }
        Ok(())
    }

    fn watch(&self, began: Instant, seconds: u64, quiet: bool) {
        let mut told = 0;
        while began.elapsed().as_secs() < seconds && !self.stop.load(Ordering::Relaxed) {
            thread::sleep(Duration::from_millis(50));
            let elapsed = began.elapsed().as_secs();
            if !quiet && elapsed >= told + 5 {
                told = elapsed;
                let counts = *self.counts.lock().expect("no thread panics");
                eprintln!(
                    "{elapsed} s: {} histories, {} calls",
                    counts.histories, counts.calls
                );
            }
        }
        self.stop.store(true, Ordering::Relaxed);
    }
}

fn run(
    ours: &Ours,
    seconds: u64,
    seed: u64,
    fault: Option<Fault>,
) -> Result<(Counts, Option<(History, Difference)>)> {
    let run = Run {
        ours,
        plan: Plan::new(seed, seconds),
        fault,
        next: AtomicU64::new(0),
        stop: AtomicBool::new(false),
        counts: Mutex::default(),
        found: Mutex::default(),
    };
    let began = Instant::now();
    let threads = thread::available_parallelism()?.get();
    thread::scope(|scope| -> Result<()> {
        let workers: Vec<_> = (0..threads)
            .map(|_| {
                scope.spawn(|| {
                    let worked = run.work();
                    run.stop.fetch_or(worked.is_err(), Ordering::Relaxed);
                    worked
                })
            })
            .collect();
        run.watch(began, seconds, fault.is_some());
        workers
            .into_iter()
            .try_for_each(|worker| worker.join().expect("a worker panicked"))
    })?;
    let counts = *run.counts.lock().expect("no thread panics");
    let found = run.found.lock().expect("no thread panics").take();
    Ok((counts, found))
}

fn shrunk(
    ours: &Ours,
    history: History,
    difference: Difference,
    fault: Option<Fault>,
) -> (History, Difference) {
    let shows = |history: &History| {
        let mut counts = Counts::default();
        let found = compare_all(ours, std::slice::from_ref(history), fault, &mut counts);
        found.ok().flatten().map(|(_, difference)| difference)
    };
    let mut shrinker = Shrinker::new(history, difference, shows);
    shrinker.shrink();
    (shrinker.history, shrinker.difference)
}

fn show(history: &History, difference: &Difference) {
    println!("the smallest script found:\n");
    for line in history {
        println!("    {line}");
    }
    println!(
        "\nours:     {}\nthe Rust: {}\n",
        difference.ours, difference.theirs
    );
}

fn compare_for(ours: &Ours, seconds: u64, seed: u64) -> Result<ExitCode> {
    let began = Instant::now();
    let (counts, found) = run(ours, seconds, seed, None)?;
    let took = began.elapsed().as_secs_f64();
    let differs = found.is_some();
    if let Some((history, difference)) = found {
        let (history, difference) = shrunk(ours, history, difference, None);
        show(&history, &difference);
    }
    println!(
        "seed {seed}: {} histories, {} calls, {} lines compared, {} refusals alike, {} histories cut at a refusal of ours, {} differences, {took:.0} s",
        counts.histories, counts.calls, counts.lines, counts.refusals, counts.cut, counts.differences,
    );
    Ok(if differs {
        ExitCode::from(1)
    } else {
        ExitCode::SUCCESS
    })
}

/// Plants each fault in turn: a run that does not see it has shown nothing.
fn plant_all(ours: &Ours, seconds: u64) -> Result<ExitCode> {
    let mut seen = 0;
    for (name, fault) in FAULTS {
        let (counts, found) = run(ours, seconds, 1, Some(fault))?;
        match found {
            Some((history, difference)) => {
                let (history, _) = shrunk(ours, history, difference, Some(fault));
                println!(
                    "seen:     {name} (after {} calls; {} lines are left)",
                    counts.calls,
                    history.len()
                );
                seen += 1;
            }
            None => println!("NOT SEEN: {name} (in {} calls)", counts.calls),
        }
    }
    println!("{} wrong answers planted, {seen} seen", FAULTS.len());
    Ok(if seen == FAULTS.len() {
        ExitCode::SUCCESS
    } else {
        ExitCode::from(1)
    })
}

/// Answers a script on standard input by the Rust alone, line by line, up to a panic.
fn answer() -> Result<ExitCode> {
    let mut side = Side::default();
    for line in stdin().lock().lines() {
        let answer = match judge::theirs(&mut side, &line?) {
            Ok(None) => continue,
            Ok(Some(answer)) => answer,
            Err(script::Unanswered) => "no form for this".into(),
        };
        println!("{answer}");
        stdout().flush()?;
        if answer.starts_with("panics: ") {
            return Ok(ExitCode::from(1));
        }
    }
    Ok(ExitCode::SUCCESS)
}

/// Shows where the sides differ by design, and whether that is what is written down.
fn differences(ours: &Ours, top: &Path) -> Result<ExitCode> {
    let folder = top.join("compare/differences");
    let shown = show::differences(ours, &folder)?;
    print!("{shown}");
    if shown == fs::read_to_string(folder.join("answers.txt")).unwrap_or_default() {
        println!("as compare/differences/answers.txt has it");
        Ok(ExitCode::SUCCESS)
    } else {
        println!("NOT as compare/differences/answers.txt has it");
        Ok(ExitCode::from(1))
    }
}

/// How many calls a sample has at least.
const CALLS: usize = 4000;

fn record(ours: &Ours, path: &Path) -> Result<ExitCode> {
    let histories = (0..1000).flat_map(|number| {
        let mut random = Random::new(number);
        FLAVOURS.map(|flavour| random_history(&mut random, flavour))
    });
    let sample = sample::sample(ours, histories, CALLS)?;
    let head = "Answers of commonware-consensus 2026.10.0 to commands of docs/script.md, made by compare/run --record.\n";
    fs::write(path, format!("{head}{sample}"))?;
    Ok(ExitCode::SUCCESS)
}

fn number(word: Option<&String>, otherwise: u64) -> u64 {
    word.and_then(|word| word.parse().ok()).unwrap_or(otherwise)
}

fn main() -> ExitCode {
    // A panic of the Rust is an answer, and no news of it is wanted.
    std::panic::set_hook(Box::new(|_| {}));
    let words: Vec<_> = env::args().skip(1).collect();
    let Some((top, words)) = words.split_first() else {
        eprintln!("usage: compare TOP [SECONDS] [SEED], or as compare/run says");
        return ExitCode::from(2);
    };
    let ours = Ours(Path::new(top).join("crates/member/out/member"));
    let file = || words.get(1).map(PathBuf::from).unwrap_or_default();
    let done = match words.first().map(String::as_str) {
        Some("--answer") => answer(),
        Some("--differences") => differences(&ours, Path::new(top)),
        Some("--script") => show::both(&ours, &file()).map(|()| ExitCode::SUCCESS),
        Some("--record") => record(&ours, &file()),
        Some("--speed") => speed::table(Path::new(top)).map(|alike| ExitCode::from(u8::from(!alike))),
        Some("--streams") => speed::streams(&file()).map(|()| ExitCode::SUCCESS),
        Some("--passes") => speed::passes(number(words.get(1), 0) as usize).map(|()| ExitCode::SUCCESS),
        Some("--plant") => plant_all(&ours, number(words.get(1), 20)),
        _ => compare_for(&ours, number(words.first(), 60), number(words.get(1), 1)),
    };
    done.unwrap_or_else(|error| {
        eprintln!("not compared: {error}");
        ExitCode::from(2)
    })
}
