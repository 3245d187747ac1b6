//! A second solver, written from docs/RULES.md alone, that tests `casebook`.
//!
//! - `second PATH-TO-CASEBOOK [--seed N]` answers many jobs itself, has casebook answer them too, and compares.
//! - `second --answer` answers a batch from standard input itself, as `casebook batch` would.
//! - `second --answer WORDS..` answers one command itself, as `casebook WORDS..` would.
//!
//! The status is 0 when all agree, 1 at a difference (or a refused or wrong command), 2 when nothing could be compared.

mod answer;
mod compare;
mod jobs;
mod programs;
mod random;
mod rules;

use std::io::{self, Read, Write};
use std::process::ExitCode;

const USAGE: &str = "usage: second PATH-TO-CASEBOOK [--seed N]\n       second --answer [WORDS..]";
const DEFAULT_SEED: u64 = 1;

fn main() -> ExitCode {
    let arguments: Vec<String> = std::env::args().skip(1).collect();
    let words: Vec<&str> = arguments.iter().map(String::as_str).collect();
    let result = match words.as_slice() {
        ["--answer"] | ["--answer", "batch"] => answer_batch(),
        ["--answer", command @ ..] => answer_single(command),
        [path] if !path.starts_with("--") => compare_with(path, DEFAULT_SEED),
        [path, "--seed", seed] | ["--seed", seed, path] => match seed.parse() {
            Ok(seed) => compare_with(path, seed),
            Err(error) => Err(format!("'{seed}' starts no random numbers: {error}")),
        },
        _ => Err(USAGE.to_string()),
    };
    result.unwrap_or_else(|message| {
        eprintln!("{message}");
        ExitCode::from(2)
    })
}

fn answer_batch() -> Result<ExitCode, String> {
    let mut input = String::new();
    io::stdin().read_to_string(&mut input).map_err(|error| format!("standard input: {error}"))?;
    let output = answer::batch_output(&input, answer::USAGE);
    io::stdout().write_all(output.as_bytes()).map_err(|error| format!("standard output: {error}"))?;
    Ok(ExitCode::SUCCESS)
}

fn answer_single(command: &[&str]) -> Result<ExitCode, String> {
    let reply = answer::answer_arguments(command);
    let text = answer::text_of(&reply, answer::USAGE);
    if reply.is_ok() {
        print!("{text}");
        Ok(ExitCode::SUCCESS)
    } else {
        eprint!("{text}");
        Ok(ExitCode::FAILURE)
    }
}

fn compare_with(path: &str, seed: u64) -> Result<ExitCode, String> {
    let report = compare::compare_all(path, seed)?;
    print!("{report}");
    Ok(if report.agrees() { ExitCode::SUCCESS } else { ExitCode::FAILURE })
}
