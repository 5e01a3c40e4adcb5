//! The ways to do a row's job.

use second::{lent, rounds, Mode};

/// What is asked of a job.
#[derive(Clone, Copy, Debug, PartialEq, Eq)]
pub enum Asked {
    Run,
    Verdict,
}

impl Asked {
    pub const ALL: [Asked; 2] = [Asked::Run, Asked::Verdict];
}

/// A program, with the way it goes. For a run the second program searches with
/// the same narrowing or tries every fact; for a verdict it takes the same
/// rounds or closes the graph.
#[derive(Clone, Copy, Debug, PartialEq, Eq)]
pub enum Way {
    Engine,
    Same,
    Other,
}

impl Way {
    pub const ALL: [Way; 3] = [Way::Engine, Way::Same, Way::Other];
}

/// The lent storage.
#[derive(Clone, PartialEq, Eq)]
pub struct Lent {
    words: Vec<u32>,
    ranks: Vec<u16>,
}

impl Lent {
    pub fn new() -> Lent {
        Lent {
            words: vec![0; lent::WORDS],
            ranks: vec![0; lent::RANKS],
        }
    }
}

/// Does the job once; says whether it was accepted.
pub fn call(way: Way, asked: Asked, job: &[u8], lent: &mut Lent) -> bool {
    match asked {
        Asked::Run => run(way, job, lent),
        Asked::Verdict => verdict(way, job, lent),
    }
}

fn run(way: Way, job: &[u8], lent: &mut Lent) -> bool {
    let (words, ranks) = (&mut lent.words, &mut lent.ranks);
    match way {
        Way::Engine => ondajusta::run_in(job, words, ranks).is_ok(),
        Way::Same => lent::run(job, words, ranks, Mode::Narrowed).is_ok(),
        Way::Other => lent::run(job, words, ranks, Mode::Plain).is_ok(),
    }
}

fn verdict(way: Way, job: &[u8], lent: &mut Lent) -> bool {
    let ranks = &mut lent.ranks;
    match way {
        Way::Engine => ondajusta::verdict(job, ranks).is_ok(),
        Way::Same => second::read(job)
            .map(|job| lent::write_ranks(&rounds::ranks(&job), ranks))
            .is_ok(),
        Way::Other => lent::verdict(job, ranks).is_ok(),
    }
}
