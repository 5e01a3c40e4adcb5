//! `differential [COUNT [SEED]]`: random jobs through the proved engine and the second program.
//!
//! Both work in lent slices that hold the same numbers before the call. What
//! they answer, the whole content of the slices afterwards, the listing byte
//! for byte and single lines have to be the same. The first difference ends the
//! run with status 1, and the job is left in `target/difference.job`.

mod agree;
mod counts;
mod draw;

use std::env;
use std::fs;
use std::process::ExitCode;

use counts::Counts;
use draw::Trial;

const USAGE: &str = "differential [COUNT [SEED]]: COUNT (200000) random jobs from SEED (1)";

/// From so many jobs on, every outcome and every refusal has to occur.
const MANY: u64 = 10_000;

fn main() -> ExitCode {
    let numbers: Option<Vec<u64>> = env::args().skip(1).map(|word| word.parse().ok()).collect();
    match numbers.as_deref() {
        Some([]) => differential(200_000, 1),
        Some([count]) => differential(*count, 1),
        Some([count, seed]) => differential(*count, *seed),
        _ => {
            eprintln!("{USAGE}");
            ExitCode::from(2)
        }
    }
}

fn differential(count: u64, seed: u64) -> ExitCode {
    println!("seed {seed}");
    let mut counts = Counts::default();
    for index in 0..count {
        let trial = Trial::new(seed, index);
        if let Err(what) = agree::agree(&trial, &mut counts) {
            return differs(&trial, index, &what);
        }
    }
    println!("{counts}");
    let missing = counts.missing();
    if count >= MANY && !missing.is_empty() {
        println!("never met: {}", missing.join(", "));
        return ExitCode::FAILURE;
    }
    println!("{count} jobs agree");
    ExitCode::SUCCESS
}

/// Tells a difference and keeps the job's bytes.
fn differs(trial: &Trial, index: u64, what: &str) -> ExitCode {
    let file = "target/difference.job";
    println!("job {index} ({}) differs: {what}", trial.name());
    match fs::write(file, &trial.job) {
        Ok(()) => println!("its bytes are in {file}"),
        Err(fault) => println!("its bytes could not be written to {file}: {fault}"),
    }
    ExitCode::FAILURE
}
