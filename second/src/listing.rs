//! The lines that are printed.

use crate::chase::{chase, Outcome, Run};
use crate::instance::{Fact, Value};
use crate::job::{Job, Refusal};
use crate::matching::Mode;
use crate::ranks::{ranks, Ranks};

pub fn of_refusal(refusal: Refusal) -> String {
    format!("refused {} at {}\n", refusal.number, refusal.place)
}

/// The listing of an accepted job.
pub fn of_job(job: &Job, mode: Mode) -> String {
    let run = chase(job, mode);
    let mut text = outcome_line(&run);
    text += &verdict_line(&ranks(job));
    for fact in run.instance.facts() {
        text += &fact_line(fact, job.arities[usize::from(fact.relation)]);
    }
    text
}

/// The verdict line and one line for each position.
pub fn of_ranks(job: &Job, ranks: &Ranks) -> String {
    let mut text = verdict_line(ranks);
    for relation in 0..job.arities.len() {
        for (place, rank) in ranks.ranks[relation].iter().enumerate() {
            text += &format!("{relation} {place} {rank}\n");
        }
    }
    text
}

pub fn outcome_word(outcome: Outcome) -> &'static str {
    match outcome {
        Outcome::Done => "done",
        Outcome::Failed => "failed",
        Outcome::Steps => "steps",
        Outcome::Room => "room",
    }
}

fn outcome_line(run: &Run) -> String {
    let word = outcome_word(run.outcome);
    format!(
        "{word} {} {} {}\n",
        run.steps,
        run.instance.len(),
        run.next_blank
    )
}

fn verdict_line(ranks: &Ranks) -> String {
    let word = if ranks.acyclic { "acyclic" } else { "cyclic" };
    format!("{word} {}\n", ranks.generations)
}

/// Relation, values, line feed.
pub fn fact_line(fact: &Fact, arity: u8) -> String {
    let mut line = fact.relation.to_string();
    for value in &fact.values[..usize::from(arity)] {
        line += " ";
        line += &value_text(*value);
    }
    line + "\n"
}

/// A constant's number, or a blank's number after `#`.
pub fn value_text(value: Value) -> String {
    let mark = if value.is_blank() { "#" } else { "" };
    format!("{mark}{}", value.number())
}
