//! Compares a compiled `desk` with the reference on random inputs.
//!
//! `runs PROGRAM SEED COUNT` starts PROGRAM once for each of COUNT inputs of SEED, and
//! holds what it prints against the reference's text. It prints one line that tells how
//! often each answer came and what the inputs met; or the first difference it finds, and
//! exits with 1.
//!
//! `runs --self SEED COUNT` runs the reference alone, and prints the same line.
//!
//! Where COUNT is 5,000 or more, it also exits with 1 if something in that line is 0.

use std::collections::BTreeMap;
use std::env;
use std::io::{self, Write};
use std::process::{ChildStdin, Command, ExitCode, Stdio};
use std::sync::atomic::{AtomicBool, AtomicU64, Ordering};
use std::thread;

use reference::command;
use reference::desk::{desk, text};
use reference::hex;
use reference::schedules::{input, marks, MARKS};

const USAGE: &str = "usage: runs PROGRAM SEED COUNT, or runs --self SEED COUNT";
/// With so many inputs, all that can be said of one must be met.
const ENOUGH: u64 = 5_000;
const WORKERS: usize = 2;
/// A pipe takes so many bytes before anyone reads from it.
const AT_ONCE: usize = 4_096;

/// How often each mark was met.
type Tally = BTreeMap<&'static str, u64>;

/// Writes an input, and closes the pipe.
fn feed(mut pipe: ChildStdin, stdin: &[u8]) -> Result<(), String> {
    match pipe.write_all(stdin) {
        // The program need not read all.
        Err(error) if error.kind() != io::ErrorKind::BrokenPipe => Err(error.to_string()),
        _ => Ok(()),
    }
}

/// What the program prints for an input.
fn printed(program: &str, stdin: &[u8]) -> Result<Vec<u8>, String> {
    let mut child = Command::new(program)
        .stdin(Stdio::piped())
        .stdout(Stdio::piped())
        .spawn()
        .map_err(|error| format!("{program}: {error}"))?;
    let pipe = child.stdin.take().expect("a pipe");
    let output = if stdin.len() <= AT_ONCE {
        feed(pipe, stdin)?;
        child.wait_with_output()
    } else {
        thread::scope(|scope| {
            let writer = scope.spawn(|| feed(pipe, stdin));
            let output = child.wait_with_output();
            writer.join().expect("a writer").map(|()| output)
        })?
    };
    let output = output.map_err(|error| error.to_string())?;
    match output.status.code() {
        Some(_) => Ok(output.stdout),
        None => Err(format!("{program} was ended: {}", output.status)),
    }
}

/// Runs one input, or says how the texts differ.
fn compare(tally: &mut Tally, program: Option<&str>, stdin: &[u8]) -> Result<(), String> {
    let expected = desk(stdin);
    let (outcome, met) = marks(stdin);
    if text(&outcome) != expected {
        return Err(format!("the reference differs from itself\n{expected}"));
    }
    for mark in met {
        *tally.entry(mark).or_default() += 1;
    }
    if let Some(program) = program {
        let given = printed(program, stdin)?;
        if given != expected.as_bytes() {
            let given = String::from_utf8_lossy(&given);
            return Err(format!("program:\n{given}reference:\n{expected}"));
        }
    }
    Ok(())
}

/// Takes inputs until there are no more, or another worker has met a difference.
fn work(
    program: Option<&str>,
    (seed, count): (u64, u64),
    next: &AtomicU64,
    stop: &AtomicBool,
) -> Result<Tally, String> {
    let mut tally = Tally::new();
    while !stop.load(Ordering::Relaxed) {
        let index = next.fetch_add(1, Ordering::Relaxed);
        if index >= count {
            break;
        }
        let (sort, stdin) = input(seed, index);
        compare(&mut tally, program, &stdin).map_err(|how| {
            stop.store(true, Ordering::Relaxed);
            let what = format!("difference at input {index} of seed {seed}, {sort:?}");
            format!("{what}\n{}\n{how}", hex::text(&stdin))
        })?;
    }
    Ok(tally)
}

/// Runs all inputs; the line of counts, or the first difference.
fn run(program: Option<&str>, seed: u64, count: u64) -> Result<String, String> {
    let (next, stop) = (AtomicU64::new(0), AtomicBool::new(false));
    let tallies: Vec<Result<Tally, String>> = thread::scope(|scope| {
        let worker = || scope.spawn(|| work(program, (seed, count), &next, &stop));
        let workers: Vec<_> = (0..WORKERS).map(|_| worker()).collect();
        let joined = workers.into_iter().map(|w| w.join().expect("a worker"));
        joined.collect()
    });
    let mut all = Tally::new();
    for tally in tallies {
        for (mark, times) in tally? {
            *all.entry(mark).or_default() += times;
        }
    }
    let times = |mark: &str| all.get(mark).copied().unwrap_or(0);
    let counts: Vec<String> = MARKS
        .iter()
        .map(|mark| format!("{mark}: {}", times(mark)))
        .collect();
    let what = match program {
        Some(_) => "no difference",
        None => "the reference alone",
    };
    let summary = format!("{what}, seed {seed}, {count} inputs; {}", counts.join(", "));
    match MARKS.iter().find(|mark| times(mark) == 0) {
        Some(mark) if count >= ENOUGH => Err(format!("{summary}\nnone has: {mark}")),
        _ => Ok(summary),
    }
}

fn main() -> ExitCode {
    let arguments: Vec<String> = env::args().skip(1).collect();
    let [program, seed, count] = arguments.as_slice() else {
        eprintln!("{USAGE}");
        return ExitCode::from(command::MISUSED);
    };
    let (Ok(seed), Ok(count)) = (seed.parse(), count.parse()) else {
        eprintln!("{USAGE}");
        return ExitCode::from(command::MISUSED);
    };
    let program = Some(program.as_str()).filter(|&program| program != "--self");
    command::end(run(program, seed, count))
}
