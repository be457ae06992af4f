//! Prints the listing of one table.
//!
//! `list` reads the table's bytes from standard input;
//! `list --hex FILE` reads hexadecimal text with `#` comments.

use std::env;
use std::fs;
use std::io::{self, Read, Write};
use std::process::ExitCode;

use reference::{hex, limits::READ_LIMIT, listing};

fn table(arguments: &[String]) -> Result<Vec<u8>, String> {
    let mut table = Vec::new();
    match arguments {
        [] => {
            io::stdin()
                .lock()
                .take(READ_LIMIT as u64)
                .read_to_end(&mut table)
                .map_err(|error| format!("standard input: {error}"))?;
        }
        [option, file] if option == "--hex" => {
            let text = fs::read_to_string(file).map_err(|error| format!("{file}: {error}"))?;
            table = hex::parse(&text).map_err(|error| format!("{file}: {error}"))?;
            table.truncate(READ_LIMIT);
        }
        _ => return Err("usage: list [--hex FILE]".to_string()),
    }
    Ok(table)
}

fn main() -> ExitCode {
    let arguments: Vec<String> = env::args().skip(1).collect();
    let written = table(&arguments).and_then(|table| {
        io::stdout()
            .write_all(&listing(&table))
            .map_err(|error| format!("standard output: {error}"))
    });
    match written {
        Ok(()) => ExitCode::SUCCESS,
        Err(message) => {
            eprintln!("{message}");
            ExitCode::from(2)
        }
    }
}
