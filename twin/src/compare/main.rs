//! `compare PROGRAM [COUNT] [SEED]`: feeds the same traces to PROGRAM and to the
//! twin and compares every byte that they write.
//!
//! PROGRAM is a command line, split at blanks, that reads a trace on standard input
//! and writes the report. Status 0: all equal, and each reachable pair of op and
//! answer and each stop met often enough. Status 1: not so. Status 2: bad use.

mod damage;
mod dice;
mod kinds;
mod limits;
mod other;
mod pairs;
mod print;
mod shrink;
mod story;

use std::io::{self, Write};
use std::process::ExitCode;
use std::sync::atomic::{AtomicBool, AtomicU64, Ordering};
use std::thread;

use twin::run::program;

use other::{Other, Reply};
use pairs::Counts;

const USAGE: &str = "usage: compare PROGRAM [COUNT] [SEED]";
const COUNT: u64 = 20_000;
const SEED: u64 = 1;
const WORKERS: usize = 2;
/// Each so many-th trace is fed in two pieces.
const PIECES: u64 = 50;

struct Task {
    other: Other,
    count: u64,
    seed: u64,
}

fn main() -> ExitCode {
    let arguments: Vec<String> = std::env::args_os()
        .skip(1)
        .map(|word| word.to_string_lossy().into_owned())
        .collect();
    let outcome = task(&arguments).and_then(|task| compare(&task));
    match outcome {
        Ok((report, equal)) => {
            let _ = io::stdout().write_all(report.as_bytes());
            if equal {
                ExitCode::SUCCESS
            } else {
                ExitCode::from(1)
            }
        }
        Err(trouble) => {
            let _ = writeln!(io::stderr(), "compare: {trouble}");
            ExitCode::from(2)
        }
    }
}

/// The task that the arguments name, or what is wrong with them.
fn task(arguments: &[String]) -> Result<Task, String> {
    let (line, numbers) = arguments.split_first().ok_or(USAGE)?;
    if numbers.len() > 2 {
        return Err(USAGE.to_string());
    }
    let number = |place: usize, otherwise: u64| match numbers.get(place) {
        Some(word) => word
            .parse()
            .map_err(|_| format!("{word:?} is no number; {USAGE}")),
        None => Ok(otherwise),
    };
    let other = Other::new(line).ok_or("PROGRAM is empty")?;
    let task = Task {
        other,
        count: number(0, COUNT)?,
        seed: number(1, SEED)?,
    };
    // One trace before all others tells a program that can't be started, also when
    // another one starts it.
    let first = task.ask(b"", false)?;
    match first.status {
        Some(status) if first.bytes.is_empty() && !status.success() => Err(format!(
            "PROGRAM wrote nothing on an empty trace and ended with {status}"
        )),
        None => Err("PROGRAM took too long over an empty trace".to_string()),
        _ => Ok(task),
    }
}

impl Task {
    fn ask(&self, trace: &[u8], in_pieces: bool) -> Result<Reply, String> {
        let reply = self.other.ask(trace, in_pieces);
        reply.map_err(|error| format!("PROGRAM can't be started: {error}"))
    }
}

/// Whether the program's reply to a trace isn't the twin's report, or it was killed.
fn differs(reply: &Reply, report: &[u8]) -> bool {
    reply.bytes != report || !reply.ended()
}

/// What one worker met, and the first trace that it found to differ.
#[derive(Default)]
struct Part {
    counts: Counts,
    compared: u64,
    differing: Option<u64>,
}

/// Compares all traces: the printed report, and whether all is well.
fn compare(task: &Task) -> Result<(String, bool), String> {
    let next = AtomicU64::new(0);
    let halt = AtomicBool::new(false);
    let parts: Vec<Result<Part, String>> = thread::scope(|scope| {
        let workers: Vec<_> = (0..WORKERS)
            .map(|_| scope.spawn(|| work(task, &next, &halt)))
            .collect();
        let joined = workers.into_iter().map(|worker| worker.join());
        joined
            .map(|part| part.unwrap_or_else(|_| Err("a worker ended early".into())))
            .collect()
    });
    let mut whole = Part::default();
    for part in parts {
        let part = part?;
        whole.counts.join(&part.counts);
        whole.compared += part.compared;
        // Numbers are given out in order, so the lowest is the first of all.
        whole.differing = [whole.differing, part.differing]
            .into_iter()
            .flatten()
            .min();
    }
    if let Some(number) = whole.differing {
        return Ok((explain(task, number)?, false));
    }
    let mut report = format!("{} traces of seed {}: equal\n", whole.compared, task.seed);
    report += &whole.counts.table();
    let faults = whole.counts.faults();
    for fault in &faults {
        report += &format!("FAILED: {fault}\n");
    }
    Ok((report, faults.is_empty()))
}

/// Takes the next trace and compares, until none is left or one differs.
fn work(task: &Task, next: &AtomicU64, halt: &AtomicBool) -> Result<Part, String> {
    let mut part = Part::default();
    while !halt.load(Ordering::Relaxed) {
        let number = next.fetch_add(1, Ordering::Relaxed);
        if number >= task.count {
            break;
        }
        let trace = kinds::trace(task.seed, number);
        let run = program(&trace);
        let reply = task
            .ask(&trace, number.is_multiple_of(PIECES))
            .inspect_err(|_| halt.store(true, Ordering::Relaxed))?;
        if differs(&reply, &run.report()) {
            halt.store(true, Ordering::Relaxed);
            part.differing = Some(number);
            break;
        }
        part.compared += 1;
        part.counts.add(&run);
    }
    Ok(part)
}

/// The differing trace made small, and what both write.
fn explain(task: &Task, number: u64) -> Result<String, String> {
    let whole = kinds::trace(task.seed, number);
    // In two pieces only when it doesn't differ otherwise.
    let in_pieces = !differs(&task.ask(&whole, false)?, &program(&whole).report());
    let trace = shrink::shrink(whole, |trace| match task.ask(trace, in_pieces) {
        Ok(reply) => differs(&reply, &program(trace).report()),
        Err(_) => false,
    });
    let twins = program(&trace).report();
    let reply = task.ask(&trace, in_pieces)?;
    let how = match reply.status {
        _ if !differs(&reply, &twins) => ", when asked again, the same".to_string(),
        _ if reply.ended() => String::new(),
        Some(status) => format!(", ended by {status}"),
        None => ", which took too long and was ended".to_string(),
    };
    let fed = if in_pieces { ", fed in two pieces" } else { "" };
    Ok(format!(
        "FAILED: trace {number} of seed {} differs\n\
         the smallest trace found that differs, {} bytes{fed}:\n{}\
         the twin writes, from the first difference on:\n{}\
         the program{how}:\n{}",
        task.seed,
        trace.len(),
        print::trace(&trace),
        print::difference(&twins, &reply.bytes),
        print::difference(&reply.bytes, &twins),
    ))
}
