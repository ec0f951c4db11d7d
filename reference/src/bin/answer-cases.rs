//! Reads a row of cases on standard input and writes their answers.

use reference::answers::answer_row;
use reference::cases::read_row;
use std::io::{self, Read, Write};
use std::process::ExitCode;

fn run() -> Result<(), String> {
    let mut row = Vec::new();
    io::stdin().read_to_end(&mut row).map_err(|error| error.to_string())?;
    let cases = read_row(&row).map_err(|formless| formless.to_string())?;
    io::stdout().write_all(&answer_row(&cases)).map_err(|error| error.to_string())
}

fn main() -> ExitCode {
    match run() {
        Ok(()) => ExitCode::SUCCESS,
        Err(what) => {
            eprintln!("answer-cases: {what}");
            ExitCode::FAILURE
        }
    }
}
