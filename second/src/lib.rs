//! A second program for the rules paper, written from the paper alone.
//!
//! A job is read ([`job`]), its rules are chased over the ordered instance
//! ([`chase`]), the dependency graph gives verdict and ranks ([`ranks`]),
//! and the answer is printed as a listing ([`listing`](mod@listing)) or written
//! into lent slices ([`lent`]).

pub mod chase;
pub mod check;
pub mod instance;
pub mod job;
pub mod lent;
pub mod listing;
pub mod matching;
pub mod random;
pub mod ranks;
pub mod rounds;
pub mod rules;
pub mod shuffle;
pub mod storage;
pub mod text;

pub use chase::{chase, Outcome, Run};
pub use job::{read, Job, Refusal};
pub use matching::Mode;
pub use ranks::{ranks, Ranks};

/// The listing of a job, or its refusal line.
pub fn listing(bytes: &[u8], mode: Mode) -> Vec<u8> {
    let text = match read(bytes) {
        Ok(job) => listing::of_job(&job, mode),
        Err(refusal) => listing::of_refusal(refusal),
    };
    text.into_bytes()
}

/// The verdict and the rank of every position of a job, or its refusal line.
pub fn ranks_listing(bytes: &[u8]) -> Vec<u8> {
    let text = match read(bytes) {
        Ok(job) => listing::of_ranks(&job, &ranks(&job)),
        Err(refusal) => listing::of_refusal(refusal),
    };
    text.into_bytes()
}
