//! Prints what the program `desk` has to print for its standard input.

use std::io::{self, Read, Write};
use std::process::ExitCode;

use reference::desk::desk;

fn main() -> ExitCode {
    let mut stdin = Vec::new();
    let read = io::stdin().lock().read_to_end(&mut stdin);
    let written = read.and_then(|_| io::stdout().write_all(desk(&stdin).as_bytes()));
    match written {
        Ok(()) => ExitCode::SUCCESS,
        Err(error) => {
            eprintln!("{error}");
            ExitCode::from(2)
        }
    }
}
