//! What the sections share of their lines, printed and in docs/BENCHMARK.md, and the surroundings.

use std::fs;
use std::process::Command;

/// A group with what was measured of it: one line of the results.
pub trait Line<const N: usize> {
    const HEADINGS: [&'static str; N];

    fn cells(&self) -> [String; N];
    /// The name of the group, and what is in it.
    fn group(&self) -> (&str, &str);
}

/// Nanoseconds as microseconds, with three figures or more.
pub fn microseconds(time: f64) -> String {
    let places = match time {
        ..10_000.0 => 3,
        ..100_000.0 => 2,
        _ => 1,
    };
    format!("{:.places$}", time / 1_000.0)
}

/// One side / another.
pub fn quotient(ratio: f64) -> String {
    format!("{ratio:.2}")
}

/// Some of all, both on average.
pub fn some_of_all(numbers: &[(usize, usize)]) -> String {
    let some = average(numbers.iter().map(|(some, _)| *some));
    let all = average(numbers.iter().map(|(_, all)| *all));
    format!("{some} of {all}")
}

/// The sum of these over their count, with one place where it is not whole.
pub fn average(numbers: impl ExactSizeIterator<Item = usize>) -> String {
    let count = numbers.len();
    let sum: usize = numbers.sum();
    match sum % count {
        0 => (sum / count).to_string(),
        _ => format!("{:.1}", sum as f64 / count as f64),
    }
}

/// Measures all groups, and prints the lines.
pub fn printed<G, L: Line<N>, const N: usize>(groups: Vec<G>, measure: impl Fn(G) -> L) -> Vec<L> {
    print_cells::<L, N>(&L::HEADINGS.map(String::from));
    let one = |group: G| {
        let line = measure(group);
        print_cells::<L, N>(&line.cells());
        line
    };
    groups.into_iter().map(one).collect()
}

/// Prints one line under its headings, the first cell to the left and the others to the right.
fn print_cells<L: Line<N>, const N: usize>(cells: &[String; N]) {
    let padded = |at: usize| {
        let width = L::HEADINGS[at].chars().count().max(12);
        format!("{:>width$}", cells[at])
    };
    let rest: Vec<String> = (1..N).map(padded).collect();
    println!("{:<25}{}", cells[0], rest.join(" "));
}

/// Lines as a table in Markdown, headings first.
pub fn markdown<L: Line<N>, const N: usize>(lines: &[L]) -> String {
    let line = |cells: &[String]| format!("| {} |\n", cells.join(" | "));
    let rule = format!("|{}\n", "---|".repeat(N));
    let lines: String = lines.iter().map(|one| line(&one.cells())).collect();
    line(&L::HEADINGS.map(String::from)) + &rule + &lines
}

/// What the groups are, as a list; neighbours of which the same is said are in one line.
pub fn listed<L: Line<N>, const N: usize>(lines: &[L]) -> String {
    let groups: Vec<(&str, &str)> = lines.iter().map(Line::group).collect();
    let line = |alike: &[(&str, &str)]| {
        let names: Vec<&str> = alike.iter().map(|(name, _)| *name).collect();
        format!("- {}: {}\n", names.join(", "), alike[0].1)
    };
    let lines: String = groups
        .chunk_by(|one, next| one.1 == next.1)
        .map(line)
        .collect();
    format!("The groups:\n\n{lines}")
}

/// The first line that a program prints of its version.
fn version(program: &str) -> String {
    let output = Command::new(program).arg("--version").output();
    let text = output.map(|output| String::from_utf8_lossy(&output.stdout).into_owned());
    match text
        .as_deref()
        .map(str::lines)
        .map(|mut lines| lines.next())
    {
        Ok(Some(line)) => line.to_string(),
        _ => format!("{program} of an unknown version"),
    }
}

/// What stands behind a key of /proc/cpuinfo, for the first processor.
fn processor(key: &str) -> String {
    let text = fs::read_to_string("/proc/cpuinfo").unwrap_or_default();
    let line = text.lines().find(|line| line.starts_with(key));
    let value = line.and_then(|line| line.split(':').nth(1));
    value.map_or("unknown", str::trim).to_string()
}

/// The machine and the tools, as lines of a list.
pub fn surroundings(load: &str) -> String {
    let cores = std::thread::available_parallelism().map_or(0, |cores| cores.get());
    format!(
        "- processor: {}, {} MHz, {cores} cores, of which the benchmark uses one\n\
         - load of the machine before the benchmark and after it: {load} (0 is idle)\n\
         - {}, release, no flags of our own\n\
         - rt: {}\n",
        processor("model name"),
        processor("cpu MHz"),
        version("rustc"),
        version("rt"),
    )
}

/// The first figure of /proc/loadavg.
pub fn load() -> String {
    let text = fs::read_to_string("/proc/loadavg").unwrap_or_default();
    text.split(' ').next().unwrap_or("unknown").to_string()
}
