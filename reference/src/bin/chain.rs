//! The dearest chain, and how many rounds a table needs.
//!
//! `chain N` writes the bytes of the dearest chain of N routines, and nothing where there is none;
//! `chain --count` reads a table's bytes from standard input and prints the number of its rounds, or
//! `refused` and the number.

use std::env;
use std::io::{self, Write};
use std::process::ExitCode;

use reference::limits::{MAX_ROUTINES, ROW_BYTES};
use reference::{analyse, command, rounds, Answer};

const USAGE: &str = "usage: chain N | --count";

/// The rounds of a table in words.
fn count(table: &[u8]) -> String {
    match analyse(table, &mut [0; ROW_BYTES * MAX_ROUTINES]) {
        Answer::Accepted { rounds, .. } => format!("{rounds}\n"),
        Answer::Refused(number) => format!("refused {number}\n"),
    }
}

/// What is to be written.
fn output(arguments: &[&str]) -> Result<Vec<u8>, String> {
    match arguments {
        ["--count"] => Ok(count(&command::stdin()?).into_bytes()),
        [n] => match n.parse() {
            Ok(n) => Ok(rounds::chain(n).unwrap_or_default()),
            Err(_) => Err(USAGE.to_string()),
        },
        _ => Err(USAGE.to_string()),
    }
}

fn main() -> ExitCode {
    let arguments: Vec<String> = env::args().skip(1).collect();
    let arguments: Vec<&str> = arguments.iter().map(String::as_str).collect();
    let written = output(&arguments).and_then(|bytes| {
        io::stdout()
            .write_all(&bytes)
            .map_err(|error| format!("standard output: {error}"))
    });
    match written {
        Ok(()) => ExitCode::SUCCESS,
        Err(message) => {
            eprintln!("{message}");
            ExitCode::from(command::MISUSED)
        }
    }
}
