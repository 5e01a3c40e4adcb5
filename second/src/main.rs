//! The command line of the second program.

use std::env;
use std::fs;
use std::io::{self, Read, Write};
use std::path::Path;
use std::process::ExitCode;

use second::random::{self, Kind};
use second::{check, job, shuffle, storage, text, Mode};

const HELP: &str = "\
second listing [--plain]             a job on standard input: its listing
second ranks                         a job on standard input: verdict and ranks
second storage                       a job on standard input: what its run leaves in the lent words
second check DIR                     compare the vectors below DIR
second make                          a text on standard input: the job's bytes
second text                          a job on standard input: its text
second random KIND SEED COUNT DIR    write random jobs (see the README)
second shuffle SEED COUNT FILE       try other orders of a job's facts and rules
second help                          this help
";

fn main() -> ExitCode {
    let arguments: Vec<String> = env::args_os()
        .skip(1)
        .map(|a| a.to_string_lossy().into_owned())
        .collect();
    let words: Vec<&str> = arguments.iter().map(String::as_str).collect();
    match command(&words) {
        Ok(true) => ExitCode::SUCCESS,
        Ok(false) => ExitCode::FAILURE,
        Err(fault) => {
            let _ = writeln!(io::stderr(), "second: {fault}");
            ExitCode::from(2)
        }
    }
}

type Answer = Result<bool, String>;

fn command(words: &[&str]) -> Answer {
    match *words {
        ["listing"] => print(&second::listing(&job_input()?, Mode::Narrowed)),
        ["listing", "--plain"] => print(&second::listing(&job_input()?, Mode::Plain)),
        ["ranks"] => print(&second::ranks_listing(&job_input()?)),
        ["storage"] => print(storage::of_bytes(&job_input()?).as_bytes()),
        ["check", folder] => check_vectors(Path::new(folder)),
        ["make"] => print(&text::make(&text_input()?)?),
        ["text"] => job_text(&job_input()?),
        ["random", kind, seed, count, folder] => {
            let kind =
                Kind::of_word(kind).ok_or("the kinds are valid, damaged, rules, wide and large")?;
            write_random(kind, number(seed)?, number(count)?, Path::new(folder))
        }
        ["shuffle", seed, count, file] => {
            shuffle_job(number(seed)?, number(count)?, Path::new(file))
        }
        ["help"] => print(HELP.as_bytes()),
        _ => Err("unknown command, see `second help`".to_string()),
    }
}

fn fault(error: io::Error) -> String {
    error.to_string()
}

fn number<T: std::str::FromStr>(word: &str) -> Result<T, String> {
    word.parse().map_err(|_| format!("`{word}` is no number"))
}

fn print(bytes: &[u8]) -> Answer {
    let mut out = io::stdout().lock();
    out.write_all(bytes)
        .and_then(|()| out.flush())
        .map_err(fault)?;
    Ok(true)
}

/// Reads one byte more than a job may have, which is enough to refuse it.
fn job_input() -> Result<Vec<u8>, String> {
    let mut bytes = Vec::new();
    let most = job::MOST_BYTES as u64 + 1;
    io::stdin()
        .lock()
        .take(most)
        .read_to_end(&mut bytes)
        .map_err(fault)?;
    Ok(bytes)
}

fn text_input() -> Result<String, String> {
    let mut text = String::new();
    io::stdin()
        .lock()
        .read_to_string(&mut text)
        .map_err(fault)?;
    Ok(text)
}

fn job_text(bytes: &[u8]) -> Answer {
    match job::read(bytes) {
        Ok(job) => print(text::of_job(&job).as_bytes()),
        Err(refusal) => {
            print(second::listing::of_refusal(refusal).as_bytes())?;
            Ok(false)
        }
    }
}

fn check_vectors(folder: &Path) -> Answer {
    let report = check::check(folder).map_err(fault)?;
    let mut lines = String::new();
    for failure in &report.failures {
        lines += &format!("{failure}\n");
    }
    lines += &format!(
        "vectors: {} passed, {} failed\n",
        report.passed,
        report.failures.len()
    );
    print(lines.as_bytes())?;
    Ok(report.passed > 0 && report.failures.is_empty())
}

fn write_random(kind: Kind, seed: u64, count: u64, folder: &Path) -> Answer {
    fs::create_dir_all(folder).map_err(fault)?;
    for index in 0..count {
        let name = format!(
            "{}-{seed}-{index:05}.job",
            format!("{kind:?}").to_lowercase()
        );
        fs::write(folder.join(name), random::job(kind, seed, index)).map_err(fault)?;
    }
    Ok(true)
}

fn shuffle_job(seed: u64, count: usize, file: &Path) -> Answer {
    let bytes = fs::read(file).map_err(fault)?;
    let (holds, line) = match shuffle::shuffle(&bytes, seed, count) {
        Ok(summary) => (true, summary),
        Err(violation) => (false, violation),
    };
    print(format!("{}: {line}\n", file.display()).as_bytes())?;
    Ok(holds)
}
