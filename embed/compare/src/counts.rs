//! How often each kind of job, outcome, refusal and verdict occurred.

use std::fmt;

use ondajusta::{Outcome, Ran, Refusal};
use second::random::Kind;

const KINDS: [&str; 5] = ["valid", "damaged", "rules", "wide", "large"];
const OUTCOMES: [&str; 4] = ["done", "failed", "steps", "room"];

#[derive(Default)]
pub struct Counts {
    kinds: [u64; 5],
    outcomes: [u64; 4],
    /// By their numbers, 0 for none.
    refusals: [u64; 11],
    acyclic: u64,
    cyclic: u64,
    steps: usize,
    most_facts: usize,
    /// Lines by their refusals, 0 for none.
    lines: [u64; 11],
}

impl Counts {
    pub fn ran(&mut self, kind: Kind, answer: &Result<Ran, Refusal>) {
        self.kinds[match kind {
            Kind::Valid => 0,
            Kind::Damaged => 1,
            Kind::Rules => 2,
            Kind::Wide => 3,
            Kind::Large => 4,
        }] += 1;
        self.refusals[number(answer)] += 1;
        let Ok(ran) = answer else { return };
        self.outcomes[match ran.outcome {
            Outcome::Done => 0,
            Outcome::Failed => 1,
            Outcome::Steps => 2,
            Outcome::Room => 3,
        }] += 1;
        if ran.verdict.acyclic {
            self.acyclic += 1;
        } else {
            self.cyclic += 1;
        }
        self.steps += ran.steps;
        self.most_facts = self.most_facts.max(ran.facts);
    }

    pub fn lined(&mut self, answer: &Result<usize, Refusal>) {
        self.lines[number(answer)] += 1;
    }

    /// What should occur in many jobs and did not.
    pub fn missing(&self) -> Vec<String> {
        let outcomes = OUTCOMES.iter().zip(self.outcomes);
        let names = outcomes.map(|(name, count)| (name.to_string(), count));
        let refusals = (1..).zip(&self.refusals[1..]);
        names
            .chain(refusals.map(|(number, &count)| (format!("refusal {number}"), count)))
            .filter(|(_, count)| *count == 0)
            .map(|(name, _)| name)
            .collect()
    }
}

fn number<T>(answer: &Result<T, Refusal>) -> usize {
    match answer {
        Ok(_) => 0,
        Err(refusal) => usize::from(refusal.number),
    }
}

/// Names with their counts in one line.
fn row(names: &[&str], counts: &[u64]) -> String {
    let pairs = names.iter().zip(counts);
    let words: Vec<String> = pairs
        .map(|(name, count)| format!("{name} {count}"))
        .collect();
    words.join(", ")
}

impl fmt::Display for Counts {
    fn fmt(&self, f: &mut fmt::Formatter<'_>) -> fmt::Result {
        let numbers = ["1", "2", "3", "4", "5", "6", "7", "8", "9", "10"];
        writeln!(f, "jobs: {}", row(&KINDS, &self.kinds))?;
        writeln!(f, "outcomes: {}", row(&OUTCOMES, &self.outcomes))?;
        writeln!(
            f,
            "refusals by number: {}",
            row(&numbers, &self.refusals[1..])
        )?;
        writeln!(
            f,
            "verdicts: acyclic {}, cyclic {}",
            self.acyclic, self.cyclic
        )?;
        writeln!(f, "steps: {}, most facts: {}", self.steps, self.most_facts)?;
        let lines = [self.lines[0], self.lines[1], self.lines[6]];
        write!(
            f,
            "lines: {}",
            row(&["written", "refused 1", "refused 6"], &lines)
        )
    }
}
