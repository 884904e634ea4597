//! The same steps on both sides, counted and timed.

use crate::{
    mixes::mixes,
    record,
    steps::{EPOCH, FINALIZATION, Mix, NOTARIZATION, NULLIFICATION, Step, Taken},
};
use commonware_consensus::simplex::machine::{
    Call, Certificate, Delivery, Fields, Machine, Requested, decoded, encoded, fields,
};
use std::{
    alloc::{GlobalAlloc, Layout, System},
    fs,
    hint::black_box,
    io::{Error, Result, Write},
    num::NonZeroU32,
    path::Path,
    process::{Command, Stdio},
    sync::atomic::{AtomicBool, AtomicIsize, Ordering},
    time::{Duration, Instant},
};

/// Counts the bytes that are in use, while it is told to.
pub struct Counting;

static COUNTS: AtomicBool = AtomicBool::new(false);
static USED: AtomicIsize = AtomicIsize::new(0);

fn count(bytes: isize) {
    if COUNTS.load(Ordering::Relaxed) {
        USED.fetch_add(bytes, Ordering::Relaxed);
    }
}

// Safety: each call is the system's own, with numbers kept beside it.
unsafe impl GlobalAlloc for Counting {
    unsafe fn alloc(&self, layout: Layout) -> *mut u8 {
        count(layout.size() as isize);
        unsafe { System.alloc(layout) }
    }

    unsafe fn dealloc(&self, at: *mut u8, layout: Layout) {
        count(-(layout.size() as isize));
        unsafe { System.dealloc(at, layout) }
    }
}

/// A step with all that the Rust is given: certificates and encoded bytes that stand ready.
enum Ready {
    Call(Call),
    Offer(Call),
    Deliver(Delivery),
    Settled(u64, bool),
    Produce(u64),
    Drain(usize),
}

fn made(kind: u8, view: u64) -> Certificate {
    let mut proof = [0; 32];
    proof[7] = 7;
    let fields = Fields {
        epoch: EPOCH,
        view,
        parent: 0,
        payload: [0; 32],
        proof,
    };
    match kind {
        NOTARIZATION => Certificate::Notarization(fields.notarization()),
        NULLIFICATION => fields.nullification(),
        FINALIZATION => fields.finalization(),
        _ => unreachable!("there are three kinds"),
    }
}

fn ready(taken: Taken) -> Ready {
    let call = match taken.step {
        Step::Updated { kind, view } => Call::Updated(made(kind, view)),
        Step::Certified { success, view } => {
            let notarization = record::judged(made(NOTARIZATION, view));
            Call::Certified(success, notarization.expect("it was made as one"))
        }
        Step::Replayed => Call::Replayed,
        Step::Resolve {
            proposal,
            view,
            notarization,
            target,
        } => Call::Resolve {
            proposal,
            view,
            notarization,
            target,
        },
        Step::Deliver { view, asks, kind, at } => {
            let asks: Vec<u8> = (0..3).filter(|rank| asks >> rank & 1 == 1).collect();
            let data = encoded(&made(kind, at));
            return Ready::Deliver(Delivery::new(view, data, &asks).expect("it has an ask"));
        }
        Step::Settled { view, notarization } => return Ready::Settled(view, notarization),
        Step::Produce { view } => return Ready::Produce(view),
        Step::Drain { most } => return Ready::Drain(most.min(65) as usize),
    };
    if taken.offered {
        Ready::Offer(call)
    } else {
        Ready::Call(call)
    }
}

fn pass(mix: &Mix, number: u64) -> Vec<Ready> {
    mix.steps
        .iter()
        .map(|step| ready(step.shifted(number * mix.span)))
        .collect()
}

fn machine(mix: &Mix) -> Machine {
    Machine::new(
        NonZeroU32::new(mix.length).expect("terms have views"),
        EPOCH,
        4,
        3,
    )
}

/// What the program bench prints.
#[derive(Default)]
struct Tally {
    calls: u64,
    done: u64,
    refused: u64,
    effects: u64,
    served: u64,
}

impl Tally {
    fn call(&mut self, machine: &mut Machine, call: Call) {
        self.calls += 1;
        let before = machine.before();
        let requested = machine.call(call.clone());
        self.done += u64::from(requested == Requested::Asked);
        self.refused += u64::from(requested == Requested::Refused);
        self.effects += before.effects(&call).len() as u64;
    }

    fn deliver(&mut self, machine: &mut Machine, delivery: Delivery) {
        let before = machine.before();
        if let (_, Some(taken)) = machine.deliver(delivery) {
            self.done += 1;
            self.effects += before.effects(&Call::Updated(taken)).len() as u64;
        }
    }

    fn serve(&mut self, machine: &mut Machine, view: u64) {
        if let Some(bytes) = machine.produce(view) {
            self.done += 1;
            let (_, fields) = fields(&decoded(bytes));
            self.served = self.served.wrapping_add(fields.view);
        }
    }

    fn step(&mut self, machine: &mut Machine, step: Ready) {
        if let Ready::Call(call) = step {
            return self.call(machine, call);
        }
        self.calls += 1;
        match step {
            Ready::Call(_) => {}
            Ready::Offer(call) => {
                machine.offer(call);
                self.done += 1;
            }
            Ready::Deliver(delivery) => self.deliver(machine, delivery),
            Ready::Settled(view, notarization) => {
                self.done += u64::from(machine.settled(view, notarization));
            }
            Ready::Produce(view) => self.serve(machine, view),
            Ready::Drain(most) => {
                for call in machine.drain(most) {
                    self.call(machine, call);
                }
            }
        }
    }
}

/// Carries the steps of a mix out and counts, with copies of the state that tell the effects.
fn counted(mix: &Mix) -> String {
    let (mut machine, mut tally) = (machine(mix), Tally::default());
    for number in 0..mix.passes {
        for step in pass(mix, number) {
            tally.step(&mut machine, step);
        }
    }
    let Tally {
        calls,
        done,
        refused,
        effects,
        served,
    } = tally;
    let open = machine.asks().count();
    format!("calls {calls} done {done} refused {refused} effects {effects} served {served} open {open}")
}

/// Carries the steps of one pass out, and nothing else.
#[inline(never)]
fn only_steps(machine: &mut Machine, steps: Vec<Ready>) {
    for step in steps {
        match step {
            Ready::Call(call) => {
                black_box(machine.call(call));
            }
            Ready::Offer(call) => machine.offer(call),
            Ready::Deliver(delivery) => {
                black_box(machine.deliver(delivery));
            }
            Ready::Settled(view, notarization) => {
                black_box(machine.settled(view, notarization));
            }
            Ready::Produce(view) => {
                black_box(machine.serve(view));
            }
            Ready::Drain(most) => {
                for call in machine.drain(most) {
                    black_box(machine.call(call));
                }
            }
        }
    }
}

/// How long the steps of a mix take.
fn timed(mix: &Mix) -> Duration {
    let (mut machine, mut took) = (machine(mix), Duration::ZERO);
    for number in 0..mix.passes {
        let steps = pass(mix, number);
        let began = Instant::now();
        only_steps(&mut machine, steps);
        took += began.elapsed();
    }
    took
}

/// How many bytes on the heap a member holds at most after a step, in one pass.
fn held(mix: &Mix) -> isize {
    USED.store(0, Ordering::Relaxed);
    COUNTS.store(true, Ordering::Relaxed);
    let (mut machine, mut most) = (machine(mix), 0);
    for step in &mix.steps {
        only_steps(&mut machine, vec![ready(*step)]);
        most = most.max(USED.load(Ordering::Relaxed));
    }
    COUNTS.store(false, Ordering::Relaxed);
    most
}

/// Runs the program bench; what it prints, and how long it took.
fn bench(program: &Path, stream: &[u8]) -> Result<(String, Duration)> {
    let began = Instant::now();
    let mut child = Command::new(program)
        .stdin(Stdio::piped())
        .stdout(Stdio::piped())
        .spawn()?;
    child
        .stdin
        .take()
        .expect("standard input is piped")
        .write_all(stream)?;
    let output = child.wait_with_output()?;
    let took = began.elapsed();
    if !output.status.success() {
        return Err(Error::other(format!("bench ended with {}", output.status)));
    }
    Ok((String::from_utf8_lossy(&output.stdout).trim().into(), took))
}

/// The shortest of several runs.
fn shortest<T: Ord>(mut run: impl FnMut() -> Result<T>) -> Result<T> {
    let mut best = run()?;
    for _ in 0..4 {
        best = best.min(run()?);
    }
    Ok(best)
}

fn without_steps(mix: &Mix) -> Mix {
    Mix {
        passes: 0,
        ..mix.clone()
    }
}

/// Instructions of a command, as callgrind counts them; in the function `inside` alone, if one is named.
fn instructions(command: &mut Command, stream: Option<&[u8]>) -> Result<u64> {
    let mut child = command
        .stdin(if stream.is_some() {
            Stdio::piped()
        } else {
            Stdio::null()
        })
        .stdout(Stdio::null())
        .stderr(Stdio::piped())
        .spawn()?;
    if let (Some(mut input), Some(stream)) = (child.stdin.take(), stream) {
        input.write_all(stream)?;
    }
    let output = child.wait_with_output()?;
    let told = String::from_utf8_lossy(&output.stderr).into_owned();
    let count = told.lines().find_map(|line| line.split_once("Collected : "));
    count
        .and_then(|(_, count)| count.trim().parse().ok())
        .ok_or_else(|| Error::other("callgrind told no count"))
}

fn callgrind() -> Command {
    let mut command = Command::new("valgrind");
    command.args(["--tool=callgrind", "--callgrind-out-file=/dev/null"]);
    command
}

/// Instructions for a call on both sides, over a few passes.
fn instructions_for_a_call(program: &Path, index: usize, mix: &Mix) -> Result<(f64, f64)> {
    let passes = few(mix);
    let short = Mix {
        passes,
        ..mix.clone()
    };
    let ours = instructions(callgrind().arg(program), Some(&short.stream(false)))?
        - instructions(callgrind().arg(program), Some(&without_steps(mix).stream(false)))?;
    let theirs = instructions(
        callgrind()
            .arg("--toggle-collect=*only_steps*")
            .arg(std::env::current_exe()?)
            .args(["-", "--passes", &index.to_string()]),
        None,
    )?;
    let calls = calls(&counted(&short)) as f64;
    Ok((ours as f64 / calls, theirs as f64 / calls))
}

fn few(mix: &Mix) -> u64 {
    1 + 60_000 / mix.steps.len() as u64
}

/// Runs a few passes of a mix, for callgrind to count.
pub fn passes(index: usize) -> Result<()> {
    let mixes = mixes();
    let mix = mixes.get(index).ok_or_else(|| Error::other("no such mix"))?;
    timed(&Mix {
        passes: few(mix),
        ..mix.clone()
    });
    Ok(())
}

fn calls(line: &str) -> u64 {
    line.split(' ')
        .nth(1)
        .and_then(|count| count.parse().ok())
        .unwrap_or(0)
}

/// Runs every mix on both sides, and prints a table.
pub fn table(top: &Path) -> Result<bool> {
    let program = top.join("crates/bench/out/bench");
    let mut alike = true;
    println!(
        "| mix | calls | ours, calls a second | the Rust, calls a second | ratio | ours, instructions a call | the Rust, instructions a call | the Rust, bytes held |"
    );
    println!("|---|---|---|---|---|---|---|---|");
    for (index, mix) in mixes().iter().enumerate() {
        let (theirs, (ours, _)) = (counted(mix), bench(&program, &mix.stream(true))?);
        if ours != theirs {
            println!("{}: ours {ours}, the Rust {theirs}", mix.name);
            alike = false;
            continue;
        }
        let calls = calls(&ours) as f64;
        let whole = shortest(|| Ok(bench(&program, &mix.stream(false))?.1))?;
        let empty = shortest(|| Ok(bench(&program, &without_steps(mix).stream(false))?.1))?;
        let theirs = shortest(|| Ok(timed(mix)))?;
        let bytes = held(mix);
        let (ours, theirs) = (
            calls / (whole - empty).as_secs_f64(),
            calls / theirs.as_secs_f64(),
        );
        let (our_count, their_count) = instructions_for_a_call(&program, index, mix)?;
        println!(
            "| {} | {calls} | {:.1} million | {:.1} million | {:.2} | {our_count:.0} | {their_count:.0} | {bytes} |",
            mix.name,
            ours / 1e6,
            theirs / 1e6,
            ours / theirs,
        );
    }
    Ok(alike)
}

/// Writes the stream of each mix to a folder, with few passes.
pub fn streams(folder: &Path) -> Result<()> {
    for mix in mixes() {
        let name: String = mix.name.chars().filter(char::is_ascii_alphanumeric).collect();
        fs::write(folder.join(name), Mix { passes: 1, ..mix }.stream(false))?;
    }
    Ok(())
}
