//! The least processor time of a call, and its instructions.

use std::env;
use std::io::{self, Read, Write};
use std::process::{Command, Stdio};

use crate::contend::{call, Asked, Lent, Way};
use crate::jobs::Row;

/// Seconds of one pass over a way's calls, and how many passes there are; a call
/// that takes longer than a pass is made once in each of fewer.
const PASS: f64 = 0.1;
const PASSES: usize = 8;
const LONG_PASSES: usize = 2;

/// Seconds from which on a call is not tried.
pub const LIMIT: f64 = 2.0;

/// The argument by which the bench calls itself under valgrind.
pub const CALLS: &str = "--calls";

#[repr(C)]
struct Timespec {
    seconds: i64,
    nanoseconds: i64,
}

extern "C" {
    fn clock_gettime(clock: i32, time: *mut Timespec) -> i32;
}

/// The processor time of this process, in seconds.
fn clock() -> f64 {
    const PROCESS: i32 = 2;
    let mut time = Timespec {
        seconds: 0,
        nanoseconds: 0,
    };
    // SAFETY: the pointer is to a time as the C library lays it out on 64-bit Linux.
    unsafe { clock_gettime(PROCESS, &mut time) };
    time.seconds as f64 + time.nanoseconds as f64 / 1e9
}

/// The least seconds of a call for each way that is tried, in passes that take
/// turns. The first calls have to leave the same.
pub fn least(row: &Row, tried: &[Way]) -> Result<Vec<f64>, String> {
    let mut best = first(row, tried)?;
    let mut lent = Lent::new();
    for turn in 0..PASSES {
        for (way, best) in tried.iter().zip(&mut best) {
            if *best < PASS || turn < LONG_PASSES {
                *best = best.min(pass(row, *way, &mut lent));
            }
        }
    }
    Ok(best)
}

/// The seconds of each way's first call, in storage of its own.
fn first(row: &Row, tried: &[Way]) -> Result<Vec<f64>, String> {
    let mut times = Vec::new();
    let mut left = Vec::new();
    for way in tried {
        let mut lent = Lent::new();
        let start = clock();
        let accepted = call(*way, row.asked, &row.job, &mut lent);
        times.push(clock() - start);
        left.push((accepted, lent));
    }
    if left.windows(2).any(|pair| pair[0] != pair[1]) {
        return Err(format!("{}: the programs disagree", row.name));
    }
    Ok(times)
}

/// The least seconds of a call in one pass.
fn pass(row: &Row, way: Way, lent: &mut Lent) -> f64 {
    let start = clock();
    let mut best = f64::INFINITY;
    let mut last = start;
    while last - start < PASS {
        call(way, row.asked, &row.job, lent);
        let now = clock();
        if last < now {
            best = best.min(now - last);
        }
        last = now;
    }
    best
}

/// The instructions of one call: two calls less one, as valgrind counts them.
pub fn instructions(row: &Row, way: Way) -> Result<f64, String> {
    Ok(counted(row, way, 2)? - counted(row, way, 1)?)
}

fn counted(row: &Row, way: Way, count: usize) -> Result<f64, String> {
    let told = under_valgrind(row, way, count).map_err(|fault| format!("valgrind: {fault}"))?;
    let line = told.lines().find(|line| line.contains("refs:"));
    let number = line.and_then(|line| line.split_whitespace().last());
    let number = number.and_then(|word| word.replace(',', "").parse().ok());
    number.ok_or(format!("valgrind told no instructions:\n{told}"))
}

/// What valgrind says of this program doing the row's job so many times.
fn under_valgrind(row: &Row, way: Way, count: usize) -> io::Result<String> {
    let mut valgrind = Command::new("valgrind")
        .args(["--tool=cachegrind", "--cache-sim=no"])
        .arg("--cachegrind-out-file=/dev/null")
        .arg(env::current_exe()?)
        .args([CALLS, &format!("{:?}", row.asked), &format!("{way:?}")])
        .arg(count.to_string())
        .stdin(Stdio::piped())
        .stderr(Stdio::piped())
        .spawn()?;
    if let Some(mut input) = valgrind.stdin.take() {
        input.write_all(&row.job)?;
    }
    let output = valgrind.wait_with_output()?;
    Ok(String::from_utf8_lossy(&output.stderr).into_owned())
}

/// Does the job on standard input so many times one way.
pub fn calls(asked: &str, way: &str, count: &str) -> Result<(), String> {
    let asked = Asked::ALL
        .into_iter()
        .find(|each| format!("{each:?}") == asked);
    let way = Way::ALL.into_iter().find(|each| format!("{each:?}") == way);
    let (Some(asked), Some(way), Ok(count)) = (asked, way, count.parse::<usize>()) else {
        return Err("no such call".to_string());
    };
    let mut job = Vec::new();
    let read = io::stdin().read_to_end(&mut job);
    read.map_err(|fault| fault.to_string())?;
    let mut lent = Lent::new();
    for _ in 0..count {
        call(way, asked, &job, &mut lent);
    }
    Ok(())
}
