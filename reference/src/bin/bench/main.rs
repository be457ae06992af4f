//! Times the archive's analysis against the fast Rust analyser of `reference::fast`, that one with the
//! count of rounds and without it, the archive's update of a model against its analysis, and its canonical
//! tables against its check and the fast Rust writer of `reference::fast_canonical`.
//!
//! `reference/bench` builds what is needed and runs this; `reference/bench --write` also writes
//! docs/BENCHMARK.md. By hand, in the folder `reference` and after `../tools/archive analysis update
//! writer`:
//!
//!     VANGPEAR_ARCHIVE_DIR=../target/staticlib VANGPEAR_ARCHIVE="analysis update writer" \
//!       cargo run --release --offline --features archive --bin bench -- [--write]
//!
//! Before anything is timed, archive, fast analyser and reference must agree on every table, in the
//! verdict and in the rounds, archive, reference and a fresh analysis on every update, and archive, fast
//! writer and reference on every canonical table; where they do not, the first difference is printed and
//! the exit status is 1.

mod analyses;
mod calls;
mod page;
mod rounds;
mod updates;
mod writings;

use std::env;
use std::fs;
use std::path::Path;
use std::process::ExitCode;

use page::{load, printed, surroundings};
use reference::groups::{groups, update_groups, writing_groups};

/// Verifies, measures and prints; writes the document if that is wanted.
fn run(write: bool) -> Result<(), String> {
    let (tables, pairs, to_write) = (groups(), update_groups(), writing_groups());
    analyses::verify(&tables)?;
    rounds::verify(&tables)?;
    updates::verify(&pairs)?;
    writings::verify(&to_write)?;
    let before = load();
    let analysed = printed(tables, analyses::measure);
    println!("{}", analyses::goal(&analysed));
    let counted = printed(rounds::with_rounds(groups()), rounds::measure);
    let updated = printed(pairs, updates::measure);
    let written = printed(to_write, writings::measure);
    let load = format!("{before} and {}", load());
    println!("{}", surroundings(&load).trim_end());
    if write {
        let path = Path::new(env!("CARGO_MANIFEST_DIR")).join("../docs/BENCHMARK.md");
        let text = [
            analyses::document(&analysed, &load),
            rounds::document(&counted),
            updates::document(&updated),
            writings::document(&written),
        ];
        fs::write(path, text.join("\n")).map_err(|error| error.to_string())?;
    }
    Ok(())
}

fn main() -> ExitCode {
    let arguments: Vec<String> = env::args().skip(1).collect();
    let write = match arguments.iter().map(String::as_str).collect::<Vec<_>>()[..] {
        [] => false,
        ["--write"] => true,
        _ => {
            eprintln!("usage: bench [--write]");
            return ExitCode::from(2);
        }
    };
    match run(write) {
        Ok(()) => ExitCode::SUCCESS,
        Err(trouble) => {
            println!("{trouble}");
            ExitCode::FAILURE
        }
    }
}
