//! Prints what the program `canonical` has to print for a table.
//!
//! `canonical` reads the table's bytes from standard input;
//! `canonical --hex FILE` reads hexadecimal text with `#` comments.
//!
//! `canonical --random FOLDER SEED COUNT` writes COUNT random tables of SEED there, each as
//! NUMBER.table, and what the program has to print for it as NUMBER.text.

use std::env;
use std::fs;
use std::io::{self, Write};
use std::path::Path;
use std::process::ExitCode;

use reference::canonical::text;
use reference::{command, hex, limits::READ_LIMIT, writings};

const USAGE: &str = "usage: canonical [--hex FILE | --random FOLDER SEED COUNT]";

/// Prints the text of a table.
fn print(table: &[u8]) -> Result<(), String> {
    io::stdout()
        .write_all(&text(table))
        .map_err(|error| format!("standard output: {error}"))
}

/// The table of a file of hexadecimal text.
fn hexadecimal(file: &str) -> Result<Vec<u8>, String> {
    let text = fs::read_to_string(file).map_err(|error| format!("{file}: {error}"))?;
    let mut table = hex::parse(&text).map_err(|error| format!("{file}: {error}"))?;
    table.truncate(READ_LIMIT);
    Ok(table)
}

/// Writes random tables and their texts.
fn random(folder: &str, seed: u64, count: u64) -> Result<(), String> {
    for index in 0..count {
        let table = writings::input(seed, index).1.table;
        for (ending, bytes) in [("table", &table), ("text", &text(&table))] {
            let path = Path::new(folder).join(format!("{index}.{ending}"));
            fs::write(&path, bytes).map_err(|error| format!("{}: {error}", path.display()))?;
        }
    }
    Ok(())
}

fn run(arguments: &[&str]) -> Result<(), String> {
    match arguments {
        [] => print(&command::stdin()?),
        ["--hex", file] => print(&hexadecimal(file)?),
        ["--random", folder, seed, count] => match (seed.parse(), count.parse()) {
            (Ok(seed), Ok(count)) => random(folder, seed, count),
            _ => Err(USAGE.to_string()),
        },
        _ => Err(USAGE.to_string()),
    }
}

fn main() -> ExitCode {
    let arguments: Vec<String> = env::args().skip(1).collect();
    let arguments: Vec<&str> = arguments.iter().map(String::as_str).collect();
    match run(&arguments) {
        Ok(()) => ExitCode::SUCCESS,
        Err(message) => {
            eprintln!("{message}");
            ExitCode::from(command::MISUSED)
        }
    }
}
