//! Safe calls of the proved engine.
//!
//! [`run`] fills a job's facts by its rules and keeps them in [`Tables`],
//! [`verdict`] judges the rules alone, and [`listing`] gives the listing as it
//! is printed. [`run_in`] and [`line`] work in storage that the caller lends.
//!
//! ```
//! let job = *b"CHS\x01\0\0\0\x01\x01\0\x01\0\0\x01\x07\0\0\0";
//! let mut tables = ondajusta::Tables::new();
//! let ran = ondajusta::run(&job, &mut tables)?;
//! assert_eq!(ran.outcome, ondajusta::Outcome::Done);
//! assert_eq!(tables.fact(0), [0, 7, 0, 0, 0, 0, 0, 0, 0]);
//! # Ok::<(), ondajusta::Refusal>(())
//! ```

mod listing;
mod raw;

pub use listing::listing;

use std::error::Error;
use std::fmt;

/// The words of 32 bits that a run needs: nine for each of 1,024 facts.
pub const WORDS: usize = 9216;

/// The words of 16 bits that a run or a verdict needs: eight for each of 64 relations.
pub const RANKS: usize = 512;

/// The words of one fact.
pub const FACT: usize = 9;

/// The bytes that a line needs at the most.
pub const LINE: usize = 128;

/// The rank of a position that has no largest number.
pub const ENDLESS: u16 = 65_535;

/// A blank is stored as its number plus this.
pub const BLANK: u32 = 2_147_483_648;

/// Why a call did nothing, and where the fault is. Nothing that was lent is altered.
#[derive(Clone, Copy, Debug, PartialEq, Eq)]
pub struct Refusal {
    /// The paper's number, 1 to 10.
    pub number: u8,
    /// The place of the fault in the job.
    pub place: usize,
}

impl fmt::Display for Refusal {
    fn fmt(&self, f: &mut fmt::Formatter<'_>) -> fmt::Result {
        write!(f, "refused {} at {}", self.number, self.place)
    }
}

impl Error for Refusal {}

/// How a run ends.
#[derive(Clone, Copy, Debug, PartialEq, Eq)]
pub enum Outcome {
    /// No rule has an active match: nothing is missing.
    Done,
    /// Two constants would have to be equal: no table keeps these rules and facts.
    Failed,
    /// The budget is spent.
    Steps,
    /// The next step would leave more than 1,024 facts.
    Room,
}

/// The verdict on a job's rules.
#[derive(Clone, Copy, Debug, PartialEq, Eq)]
pub struct Verdict {
    /// Whether the rules are weakly acyclic, so that every run of them ends.
    pub acyclic: bool,
    /// The largest finite rank.
    pub generations: u16,
}

/// A run that has ended.
#[derive(Clone, Copy, Debug, PartialEq, Eq)]
pub struct Ran {
    pub outcome: Outcome,
    pub steps: usize,
    pub facts: usize,
    pub next_blank: u32,
    pub verdict: Verdict,
}

/// The storage of a run: the facts that it leaves and the ranks of all positions.
#[derive(Clone, Debug, PartialEq, Eq)]
pub struct Tables {
    words: Vec<u32>,
    ranks: Vec<u16>,
}

impl Tables {
    pub fn new() -> Tables {
        Tables {
            words: vec![0; WORDS],
            ranks: vec![0; RANKS],
        }
    }

    /// The nine words of the fact at a place below 1,024: its relation, its
    /// values, and 0 past its arity.
    pub fn fact(&self, place: usize) -> [u32; FACT] {
        let mut fact = [0; FACT];
        fact.copy_from_slice(&self.words[FACT * place..][..FACT]);
        fact
    }

    /// The rank of a place (below 8) of a relation (below 64), or [`ENDLESS`].
    pub fn rank(&self, relation: usize, place: usize) -> u16 {
        self.ranks[8 * relation + place]
    }
}

impl Default for Tables {
    fn default() -> Tables {
        Tables::new()
    }
}

/// Runs a job. A refusal leaves the tables as they were.
pub fn run(job: &[u8], tables: &mut Tables) -> Result<Ran, Refusal> {
    run_in(job, &mut tables.words, &mut tables.ranks)
}

/// Runs a job in lent slices. It sets the first [`WORDS`] words and the first
/// [`RANKS`] ranks and touches none beyond; shorter slices are refused.
pub fn run_in(job: &[u8], words: &mut [u32], ranks: &mut [u16]) -> Result<Ran, Refusal> {
    let mut answer = [0; 7];
    // SAFETY: each pointer is a slice's, with its length, and the answer's is an array of seven; the borrows keep what is written apart.
    unsafe {
        raw::ondajusta_run(
            job.as_ptr(),
            job.len(),
            words.as_mut_ptr(),
            words.len(),
            ranks.as_mut_ptr(),
            ranks.len(),
            &mut answer,
        );
    }
    let [refusal, first, steps, facts, next_blank, acyclic, generations] = answer;
    accepted(refusal, first)?;
    Ok(Ran {
        outcome: outcome(first),
        steps: steps as usize,
        facts: facts as usize,
        next_blank: next_blank as u32,
        verdict: judged(acyclic, generations),
    })
}

/// Judges a job's rules without running it, and sets the first [`RANKS`] ranks.
pub fn verdict(job: &[u8], ranks: &mut [u16]) -> Result<Verdict, Refusal> {
    let mut answer = [0; 3];
    // SAFETY: each pointer is a slice's, with its length, and the answer's is an array of three; the borrows keep what is written apart.
    unsafe {
        raw::ondajusta_verdict(
            job.as_ptr(),
            job.len(),
            ranks.as_mut_ptr(),
            ranks.len(),
            &mut answer,
        );
    }
    let [refusal, first, generations] = answer;
    accepted(refusal, first)?;
    Ok(judged(first, generations))
}

/// Writes the line of the fact in the first nine words, whose relation has the
/// arity, into at least [`LINE`] bytes, and tells how many it set.
pub fn line(words: &[u32], arity: usize, line: &mut [u8]) -> Result<usize, Refusal> {
    let mut answer = [0; 2];
    // SAFETY: each pointer is a slice's, with its length, and the answer's is an array of two; the borrows keep what is written apart.
    unsafe {
        raw::ondajusta_line(
            words.as_ptr(),
            words.len(),
            arity,
            line.as_mut_ptr(),
            line.len(),
            &mut answer,
        );
    }
    let [refusal, first] = answer;
    accepted(refusal, first)?;
    Ok(first as usize)
}

/// The refusal that an answer starts with, if it is one.
fn accepted(number: u64, place: u64) -> Result<(), Refusal> {
    match number {
        0 => Ok(()),
        _ => Err(Refusal {
            number: number as u8,
            place: place as usize,
        }),
    }
}

fn outcome(number: u64) -> Outcome {
    match number {
        0 => Outcome::Done,
        1 => Outcome::Failed,
        2 => Outcome::Steps,
        _ => Outcome::Room,
    }
}

fn judged(acyclic: u64, generations: u64) -> Verdict {
    Verdict {
        acyclic: acyclic == 1,
        generations: generations as u16,
    }
}
