//! Every stored vector through the archive: each listing whole, and what the calls leave in lent storage.

use std::fs;
use std::path::PathBuf;
use std::thread;

use ondajusta::{Outcome, Refusal, Tables, Verdict};

fn runs() -> PathBuf {
    PathBuf::from(env!("CARGO_MANIFEST_DIR")).join("../../crates/runs")
}

fn stored(name: &str) -> Vec<u8> {
    fs::read(runs().join("data").join(name)).expect("a stored job")
}

/// The names and listings of all stored jobs.
fn printed() -> Vec<u8> {
    let mut printed = Vec::new();
    let names = fs::read_to_string(runs().join("args")).expect("the names of the vectors");
    for name in names.lines() {
        printed.extend_from_slice(name.as_bytes());
        printed.push(b'\n');
        printed.extend_from_slice(&ondajusta::listing(&stored(name)));
    }
    printed
}

/// The names and listings that are stored. For some jobs the lent storage
/// follows, from a line with its zeros on to the next name.
fn wanted() -> Vec<u8> {
    let text = fs::read_to_string(runs().join("stdout")).expect("what the vectors print");
    let mut wanted = String::new();
    let mut storage = false;
    for line in text.lines() {
        storage = (storage || line.starts_with("zeros ")) && !line.ends_with(".job");
        if !storage {
            wanted += line;
            wanted.push('\n');
        }
    }
    wanted.into_bytes()
}

/// A thread of 1 MiB prints them: a call asks for no more stack.
#[test]
fn every_listing_is_the_stored_one() {
    let thread = thread::Builder::new().stack_size(1 << 20).spawn(printed);
    let printed = thread.expect("a thread").join().expect("all listings");
    assert!(
        printed == wanted(),
        "the listings differ from crates/runs/stdout"
    );
}

#[test]
fn example_1_1_leaves_its_facts_and_ranks() {
    let mut tables = Tables::new();
    let ran = ondajusta::run(&stored("paper/run-a.job"), &mut tables).expect("a good job");
    assert_eq!(
        (ran.outcome, ran.steps, ran.facts, ran.next_blank),
        (Outcome::Done, 2, 4, 1)
    );
    let verdict = Verdict {
        acyclic: false,
        generations: 0,
    };
    assert_eq!(ran.verdict, verdict);
    assert_eq!(tables.fact(1), [1, 1, ondajusta::BLANK, 0, 0, 0, 0, 0, 0]);
    assert_eq!(tables.fact(4), [0; 9]);
    assert_eq!(
        (tables.rank(0, 0), tables.rank(2, 0)),
        (ondajusta::ENDLESS, 0)
    );
}

#[test]
fn a_refusal_leaves_what_is_lent() {
    let (mut words, mut ranks) = (vec![7; ondajusta::WORDS], vec![7; ondajusta::RANKS - 1]);
    let short = Err(Refusal {
        number: 1,
        place: 0,
    });
    let job = stored("paper/run-a.job");
    assert_eq!(
        ondajusta::run_in(&job, &mut words, &mut ranks).map(|_| ()),
        short.map(|_: Verdict| ())
    );
    assert_eq!(ondajusta::verdict(&job, &mut ranks), short);
    assert!(words.iter().all(|&word| word == 7) && ranks.iter().all(|&rank| rank == 7));
}

#[test]
fn what_is_longer_stays_beyond() {
    let (mut words, mut ranks) = (vec![7; ondajusta::WORDS + 3], vec![7; ondajusta::RANKS + 3]);
    assert!(ondajusta::run_in(&stored("paper/run-a.job"), &mut words, &mut ranks).is_ok());
    assert_eq!(
        (&words[ondajusta::WORDS..], &ranks[ondajusta::RANKS..]),
        (&[7; 3][..], &[7; 3][..])
    );
    assert!(words[36..ondajusta::WORDS].iter().all(|&word| word == 0));
}
