//! Checks that a run doesn't hang on the order in which a job lists things.

use crate::chase::{chase, Outcome};
use crate::instance::MOST_FACTS;
use crate::job::{read, Job};
use crate::listing::outcome_word;
use crate::matching::Mode;
use crate::random::Random;
use crate::text;

/// Shuffles facts and rules `count` times each. The summary is an error if
/// an order of facts changes the listing, or if one order of rules fails
/// where another is done.
pub fn shuffle(bytes: &[u8], seed: u64, count: usize) -> Result<String, String> {
    let job = match read(bytes) {
        Ok(job) => job,
        Err(refusal) => {
            return Err(format!(
                "nothing to shuffle: refused {} at {}",
                refusal.number, refusal.place
            ));
        }
    };
    let mut random = Random::new(seed);
    shuffle_facts(bytes, &job, &mut random, count)?;
    let outcomes = shuffle_rules(&job, &mut random, count);
    let words: Vec<String> = outcomes
        .iter()
        .map(|(outcome, times)| format!("{} {times}", outcome_word(*outcome)))
        .collect();
    let summary = format!(
        "{count} orders of facts: same listing; rule orders: {}",
        words.join(", ")
    );
    let met = |wanted: Outcome| {
        outcomes
            .iter()
            .any(|&(outcome, times)| outcome == wanted && times > 0)
    };
    if met(Outcome::Done) && met(Outcome::Failed) {
        return Err(format!("violated: done and failed both met; {summary}"));
    }
    Ok(summary)
}

/// Tries orders of the facts, some of them repeated.
fn shuffle_facts(bytes: &[u8], job: &Job, random: &mut Random, count: usize) -> Result<(), String> {
    let expected = crate::listing(bytes, Mode::Narrowed);
    for round in 0..count {
        let mut other = job.clone();
        repeat_some_facts(&mut other, random);
        random.shuffle(&mut other.facts);
        let shuffled = text::make(&text::of_job(&other))?;
        if shuffled.len() <= crate::job::MOST_BYTES
            && crate::listing(&shuffled, Mode::Narrowed) != expected
        {
            return Err(format!(
                "violated: order {round} of the facts changes the listing"
            ));
        }
    }
    Ok(())
}

fn repeat_some_facts(job: &mut Job, random: &mut Random) {
    let room = MOST_FACTS - job.facts.len().min(MOST_FACTS);
    let most = room.min(job.facts.len());
    for _ in 0..random.below(most + 1) {
        let fact = job.facts[random.below(job.facts.len())];
        job.facts.push(fact);
    }
}

/// Counts the outcomes over the job's own order and `count` other orders of
/// its rules.
fn shuffle_rules(job: &Job, random: &mut Random, count: usize) -> Vec<(Outcome, usize)> {
    let all = [
        Outcome::Done,
        Outcome::Failed,
        Outcome::Steps,
        Outcome::Room,
    ];
    let mut outcomes: Vec<(Outcome, usize)> = all.map(|outcome| (outcome, 0)).to_vec();
    let mut other = job.clone();
    for _ in 0..=count {
        let met = chase(&other, Mode::Narrowed).outcome;
        for (outcome, times) in &mut outcomes {
            *times += usize::from(*outcome == met);
        }
        random.shuffle(&mut other.rules);
    }
    outcomes
}
