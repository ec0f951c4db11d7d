//! Makes rows of cases:
//!
//!     make-cases SEED                     the row of the seed, on standard output
//!     make-cases --census SEED            what the row's cases come to, and how often
//!     make-cases --files SEED COUNT DIR   so many cases of the seed and those after it, as files

use reference::answers::answer;
use reference::cases::{write_row, Case};
use reference::making::census::Census;
use reference::making::demands::shortages;
use reference::making::row::row;
use std::io::{self, Write};
use std::path::Path;
use std::process::ExitCode;

const USE: &str = "make-cases SEED | --census SEED | --files SEED COUNT DIR";

fn main() -> ExitCode {
    let words: Vec<String> = std::env::args().skip(1).collect();
    let words: Vec<&str> = words.iter().map(String::as_str).collect();
    match run(&words) {
        Ok(()) => ExitCode::SUCCESS,
        Err(what) => {
            eprintln!("make-cases: {what}");
            ExitCode::FAILURE
        }
    }
}

fn run(words: &[&str]) -> Result<(), String> {
    let done = match words {
        ["--census", seed] => return print_census(&Census::of(&row(number(seed)?))),
        ["--files", seed, count, directory] => {
            write_files(number(seed)?, number(count)?, Path::new(directory))
        }
        [seed] => io::stdout().write_all(&write_row(&row(number(seed)?))),
        _ => return Err(format!("use: {USE}")),
    };
    done.map_err(|error| error.to_string())
}

fn number(word: &str) -> Result<u64, String> {
    word.parse().map_err(|_| format!("{word} is no number; use: {USE}"))
}

/// Fails where an answer is too rare.
fn print_census(census: &Census) -> Result<(), String> {
    let mut text = format!("{:5} plans and checks, {} of them declined\n", census.jobs, census.declined);
    text.push_str(&format!("{:5} echoes\n", census.echoes));
    for (label, count) in &census.counts {
        text.push_str(&format!("{count:5} {label}\n"));
    }
    io::stdout().write_all(text.as_bytes()).map_err(|error| error.to_string())?;
    match &shortages(census)[..] {
        [] => Ok(()),
        shortages => Err(shortages.join("\nmake-cases: ")),
    }
}

/// Writes K.job, K.sheet and K.answer for each case K, as far as the case has them.
fn write_files(seed: u64, count: u64, directory: &Path) -> io::Result<()> {
    std::fs::create_dir_all(directory)?;
    let seeds = (0..).map(|turn| seed.wrapping_add(turn));
    for (number, case) in (0..count).zip(seeds.flat_map(row)) {
        let write =
            |kind: &str, bytes: &[u8]| std::fs::write(directory.join(format!("{number}.{kind}")), bytes);
        match &case {
            Case::Plan { job } => write("job", job)?,
            Case::Check { job, sheet } => {
                write("job", job)?;
                write("sheet", sheet)?;
            }
            Case::Echo { sheet } => write("sheet", sheet)?,
        }
        write("answer", &answer(&case).bytes())?;
    }
    Ok(())
}
