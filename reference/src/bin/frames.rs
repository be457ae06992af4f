//! Writes what the program `cases` reads and what it must write.
//!
//! `frames FOLDER` writes FOLDER/stdin, tables in frames, and FOLDER/stdout, the
//! reference's listings of them. The tables are always the same ones.
//!
//! `frames FOLDER SEED` does so for random tables of SEED alone.

use std::env;
use std::fs;
use std::path::Path;
use std::process::ExitCode;

use reference::frames::{all, encode, listings, random, Frame};

const USAGE: &str = "usage: frames FOLDER [SEED]";

fn write(folder: &Path, frames: &[Frame]) -> Result<String, String> {
    let (stdin, stdout) = (encode(frames), listings(frames));
    for (name, bytes) in [("stdin", &stdin), ("stdout", &stdout)] {
        let path = folder.join(name);
        fs::write(&path, bytes).map_err(|error| format!("{}: {error}", path.display()))?;
    }
    Ok(format!(
        "{} tables in {} bytes, listings of {} bytes",
        frames.len(),
        stdin.len(),
        stdout.len()
    ))
}

fn main() -> ExitCode {
    let arguments: Vec<String> = env::args().skip(1).collect();
    let written = match arguments.as_slice() {
        [folder] => write(Path::new(folder), &all()),
        [folder, seed] => match seed.parse() {
            Ok(seed) => write(Path::new(folder), &random(seed)),
            Err(_) => Err(USAGE.to_string()),
        },
        _ => Err(USAGE.to_string()),
    };
    match written {
        Ok(summary) => {
            println!("{summary}");
            ExitCode::SUCCESS
        }
        Err(message) => {
            eprintln!("{message}");
            ExitCode::from(2)
        }
    }
}
