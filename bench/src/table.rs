//! The printed tables.

use crate::contend::{Asked, Way};
use crate::jobs::{families, Family, Row};
use crate::measure::{instructions, least, LIMIT};

/// Valgrind counts the calls that take less than so many seconds.
const COUNTED: f64 = 0.2;

/// Prints all rows, those of runs before those of verdicts.
pub fn print(counting: bool) -> Result<(), String> {
    for asked in Asked::ALL {
        head(asked, counting);
        for family in families() {
            if family.iter().all(|row| row.asked == asked) {
                rows(&family, counting)?;
            }
        }
        println!();
    }
    let limit = 1000.0 * LIMIT;
    println!("Over {limit:.0}: not tried, since a smaller row says that a call takes longer.");
    Ok(())
}

fn head(asked: Asked, counting: bool) {
    let (same, other) = match asked {
        Asked::Run => ("second", "plain"),
        Asked::Verdict => ("rounds", "graph"),
    };
    let mut cells = vec!["job".to_string(), "bytes".to_string()];
    cells.extend(["engine", same, other].map(|way| format!("{way} ms")));
    cells.extend([same, other].map(|way| format!("to {way}")));
    if counting {
        cells.extend(["engine", same, other].map(|way| format!("{way} M")));
    }
    println!("{}", line(&cells));
    println!("{}", line(&vec!["---".to_string(); cells.len()]));
}

fn rows(family: &Family, counting: bool) -> Result<(), String> {
    let mut before: [Option<(f64, f64)>; 3] = [None; 3];
    for row in family {
        let tried: Vec<Way> = (0..3)
            .filter(|&way| expected(before[way], row) < LIMIT)
            .map(|way| Way::ALL[way])
            .collect();
        let mut times = [None; 3];
        for (way, time) in tried.iter().zip(least(row, &tried)?) {
            times[*way as usize] = Some(time);
            before[*way as usize] = Some((time, row.work));
        }
        let counts = if counting {
            counts(row, &times)?
        } else {
            vec![]
        };
        println!("{}", line(&cells(row, times, counts)));
    }
    Ok(())
}

/// The seconds that a call should take by what a smaller row took.
fn expected(before: Option<(f64, f64)>, row: &Row) -> f64 {
    before.map_or(0.0, |(time, work)| time * row.work / work)
}

fn counts(row: &Row, times: &[Option<f64>; 3]) -> Result<Vec<String>, String> {
    let ways = Way::ALL.iter().zip(times);
    ways.map(|(&way, time)| match time {
        Some(time) if *time < COUNTED => Ok(format!("{:.2}", instructions(row, way)? / 1e6)),
        _ => Ok("-".to_string()),
    })
    .collect()
}

fn cells(row: &Row, times: [Option<f64>; 3], counts: Vec<String>) -> Vec<String> {
    let [engine, same, other] = times;
    let shown = |time: Option<f64>| match time {
        Some(seconds) => format!("{:.3}", 1000.0 * seconds),
        None => format!("over {:.0}", 1000.0 * LIMIT),
    };
    let ratio = |time: Option<f64>| match (engine, time) {
        (Some(engine), Some(time)) => format!("{:.2}", engine / time),
        _ => "-".to_string(),
    };
    let mut cells = vec![row.name.clone(), row.job.len().to_string()];
    cells.extend([engine, same, other].map(shown));
    cells.extend([same, other].map(ratio));
    cells.extend(counts);
    cells
}

fn line(cells: &[String]) -> String {
    let (name, numbers) = cells.split_first().expect("a table has columns");
    let numbers: Vec<String> = numbers.iter().map(|cell| format!("{cell:>9}")).collect();
    format!("| {name:22} | {} |", numbers.join(" | "))
}
