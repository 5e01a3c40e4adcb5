//! Compares stored vectors with what the program gives.

use std::fs;
use std::io;
use std::path::{Path, PathBuf};

use crate::matching::Mode;
use crate::text;

/// How the vectors below a folder fared.
#[derive(Default)]
pub struct Report {
    pub passed: usize,
    pub failures: Vec<String>,
}

/// Checks every `*.job` below a folder.
pub fn check(folder: &Path) -> io::Result<Report> {
    let mut jobs = Vec::new();
    collect_jobs(folder, &mut jobs)?;
    jobs.sort();
    let mut report = Report::default();
    for job in jobs {
        let faults = check_job(&job);
        if faults.is_empty() {
            report.passed += 1;
        } else {
            report
                .failures
                .push(format!("{}: {}", job.display(), faults.join(", ")));
        }
    }
    Ok(report)
}

fn collect_jobs(folder: &Path, jobs: &mut Vec<PathBuf>) -> io::Result<()> {
    for entry in fs::read_dir(folder)? {
        let path = entry?.path();
        if path.is_dir() {
            collect_jobs(&path, jobs)?;
        } else if path.extension().is_some_and(|end| end == "job") {
            jobs.push(path);
        }
    }
    Ok(())
}

/// What is wrong with one vector; nothing if it passes.
fn check_job(path: &Path) -> Vec<&'static str> {
    let mut faults = Vec::new();
    let Ok(job) = fs::read(path) else {
        return vec!["the job can't be read"];
    };
    match fs::read(path.with_extension("listing")) {
        Err(_) => faults.push("no stored listing"),
        Ok(stored) => {
            if crate::listing(&job, Mode::Narrowed) != stored {
                faults.push("listing differs");
            }
            if crate::listing(&job, Mode::Plain) != stored {
                faults.push("plain listing differs");
            }
        }
    }
    if fs::read(path.with_extension("ranks"))
        .is_ok_and(|stored| crate::ranks_listing(&job) != stored)
    {
        faults.push("ranks differ");
    }
    let text = path.with_extension("txt");
    if text.exists() && !makes(&text, &job) {
        faults.push("the text makes other bytes");
    }
    faults
}

fn makes(text: &Path, job: &[u8]) -> bool {
    fs::read_to_string(text).is_ok_and(|text| text::make(&text).is_ok_and(|made| made == job))
}
