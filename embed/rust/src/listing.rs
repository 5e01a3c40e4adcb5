//! The listing of a job: the first two lines, and a line for each fact.

use crate::{line, run, Outcome, Ran, Refusal, Tables, LINE};

/// Where a job's arities start.
const ARITIES: usize = 8;

/// The listing of a job, or its refusal line.
pub fn listing(job: &[u8]) -> Vec<u8> {
    let mut tables = Tables::new();
    listed(job, &mut tables).unwrap_or_else(|refusal| format!("{refusal}\n").into_bytes())
}

fn listed(job: &[u8], tables: &mut Tables) -> Result<Vec<u8>, Refusal> {
    let ran = run(job, tables)?;
    let mut text = first_lines(&ran).into_bytes();
    let mut lent = [0; LINE];
    for place in 0..ran.facts {
        let fact = tables.fact(place);
        let arity = job[ARITIES + fact[0] as usize];
        let count = line(&fact, usize::from(arity), &mut lent)?;
        text.extend_from_slice(&lent[..count]);
    }
    Ok(text)
}

fn first_lines(ran: &Ran) -> String {
    let outcome = match ran.outcome {
        Outcome::Done => "done",
        Outcome::Failed => "failed",
        Outcome::Steps => "steps",
        Outcome::Room => "room",
    };
    let verdict = if ran.verdict.acyclic {
        "acyclic"
    } else {
        "cyclic"
    };
    format!(
        "{outcome} {} {} {}\n{verdict} {}\n",
        ran.steps, ran.facts, ran.next_blank, ran.verdict.generations
    )
}
