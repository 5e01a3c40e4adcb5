//! `bench [--instructions]`: a table of times, each row measured in this run.
//!
//! A row is a job made here. The engine and the second program's two ways do
//! it in turn, in lent storage, and have to leave the same. The least processor
//! time of a call counts, and the engine's is given as a ratio to each. With
//! `--instructions` valgrind counts those of one call, in millions, where it
//! takes less than 0.2 s.

mod contend;
mod jobs;
mod measure;
mod table;

use std::env;
use std::process::ExitCode;

const USAGE: &str = "bench [--instructions]";

fn main() -> ExitCode {
    let arguments: Vec<String> = env::args().skip(1).collect();
    let words: Vec<&str> = arguments.iter().map(String::as_str).collect();
    let done = match *words {
        [] => table::print(false),
        ["--instructions"] => table::print(true),
        [measure::CALLS, asked, way, count] => measure::calls(asked, way, count),
        _ => Err(USAGE.to_string()),
    };
    match done {
        Ok(()) => ExitCode::SUCCESS,
        Err(fault) => {
            eprintln!("bench: {fault}");
            ExitCode::FAILURE
        }
    }
}
