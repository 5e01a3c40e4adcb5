//! What a run, a verdict and the line writer leave in lent slices.

use crate::chase::{chase, Outcome};
use crate::instance::{Fact, Value, PLACES};
use crate::job::{read, Refusal};
use crate::listing::fact_line;
use crate::matching::Mode;
use crate::ranks::{ranks, Ranks};

/// The words of 32 bits that are lent to a run at least.
pub const WORDS: usize = 9216;

/// The words of 16 bits that are lent to a run or a verdict at least.
pub const RANKS: usize = 512;

/// The words of one fact.
pub const FACT: usize = PLACES + 1;

/// The bytes that are lent to the line writer at least.
pub const LINE: usize = 128;

/// The verdict with its generations.
#[derive(Clone, Copy, Debug, PartialEq, Eq)]
pub struct Verdict {
    pub acyclic: bool,
    pub generations: u16,
}

/// How a run ended, with the verdict beside it.
#[derive(Clone, Copy, Debug, PartialEq, Eq)]
pub struct Answer {
    pub outcome: Outcome,
    pub steps: u32,
    pub facts: usize,
    pub next_blank: u32,
    pub verdict: Verdict,
}

fn refuse<T>(number: u8) -> Result<T, Refusal> {
    Err(Refusal { number, place: 0 })
}

/// Runs a job. An accepted one sets the first words of both slices entirely.
pub fn run(
    bytes: &[u8],
    words: &mut [u32],
    lent_ranks: &mut [u16],
    mode: Mode,
) -> Result<Answer, Refusal> {
    if words.len() < WORDS || lent_ranks.len() < RANKS {
        return refuse(1);
    }
    let job = read(bytes)?;
    let run = chase(&job, mode);
    write_facts(run.instance.facts(), words);
    let verdict = write_ranks(&ranks(&job), lent_ranks);
    Ok(Answer {
        outcome: run.outcome,
        steps: run.steps,
        facts: run.instance.len(),
        next_blank: run.next_blank,
        verdict,
    })
}

/// Judges the rules of a whole job.
pub fn verdict(bytes: &[u8], lent_ranks: &mut [u16]) -> Result<Verdict, Refusal> {
    if lent_ranks.len() < RANKS {
        return refuse(1);
    }
    let job = read(bytes)?;
    Ok(write_ranks(&ranks(&job), lent_ranks))
}

/// Writes the line of the fact in nine words, and tells how many bytes it has.
pub fn line(words: &[u32], arity: usize, line: &mut [u8]) -> Result<usize, Refusal> {
    if words.len() < FACT || line.len() < LINE {
        return refuse(1);
    }
    if words[0] > 63 || !(1..=PLACES).contains(&arity) {
        return refuse(6);
    }
    let mut values = [Value::NONE; PLACES];
    for (value, &word) in values.iter_mut().zip(&words[1..]) {
        *value = Value::of_word(word);
    }
    let fact = Fact {
        relation: words[0] as u8,
        values,
    };
    let text = fact_line(&fact, arity as u8);
    line[..text.len()].copy_from_slice(text.as_bytes());
    Ok(text.len())
}

/// Nine words for each fact, zero past the last.
fn write_facts(facts: &[Fact], words: &mut [u32]) {
    words[..WORDS].fill(0);
    for (row, fact) in words.chunks_exact_mut(FACT).zip(facts) {
        row[0] = u32::from(fact.relation);
        for (word, value) in row[1..].iter_mut().zip(fact.values) {
            *word = value.word();
        }
    }
}

/// The rank of place p of relation r at 8r + p, zero where there is none.
pub fn write_ranks(judged: &Ranks, words: &mut [u16]) -> Verdict {
    words[..RANKS].fill(0);
    for (row, ranks) in words.chunks_exact_mut(PLACES).zip(&judged.ranks) {
        row[..ranks.len()].copy_from_slice(ranks);
    }
    Verdict {
        acyclic: judged.acyclic,
        generations: judged.generations,
    }
}
