//! One trial: whether the engine and the second program do the same.

use std::fmt::Debug;

use ondajusta::{Outcome, Ran, Refusal, Verdict};
use second::lent;

use crate::counts::Counts;
use crate::draw::Trial;

type Agrees = Result<(), String>;

/// Tries the run, the verdict, the listing and a line.
pub fn agree(trial: &Trial, counts: &mut Counts) -> Agrees {
    let ran = run(trial)?;
    counts.ran(trial.kind, &ran);
    counts.lined(&line(trial)?);
    verdict(trial)?;
    rounds(trial)?;
    listing(trial)
}

fn run(trial: &Trial) -> Result<Result<Ran, Refusal>, String> {
    let (mut words, mut ranks) = (trial.words.clone(), trial.ranks.clone());
    let engine = ondajusta::run_in(&trial.job, &mut words, &mut ranks);
    let (mut wanted_words, mut wanted_ranks) = (trial.words.clone(), trial.ranks.clone());
    let wanted = lent::run(&trial.job, &mut wanted_words, &mut wanted_ranks, trial.mode);
    same("the run's answer", engine, wanted.map(ran).map_err(refusal))?;
    same_slices("word", &words, &wanted_words)?;
    same_slices("rank of the run", &ranks, &wanted_ranks)?;
    Ok(engine)
}

fn verdict(trial: &Trial) -> Agrees {
    let mut ranks = trial.ranks.clone();
    let engine = ondajusta::verdict(&trial.job, &mut ranks);
    let mut wanted_ranks = trial.ranks.clone();
    let wanted = lent::verdict(&trial.job, &mut wanted_ranks);
    same("the verdict", engine, wanted.map(judged).map_err(refusal))?;
    same_slices("rank of the verdict", &ranks, &wanted_ranks)
}

/// The second program's two ways to ranks give the same.
fn rounds(trial: &Trial) -> Agrees {
    match second::read(&trial.job) {
        Ok(job) => same(
            "the ranks by rounds",
            second::rounds::ranks(&job),
            second::ranks(&job),
        ),
        Err(_) => Ok(()),
    }
}

fn listing(trial: &Trial) -> Agrees {
    let engine = ondajusta::listing(&trial.job);
    same_slices(
        "byte of the listing",
        &engine,
        &second::listing(&trial.job, trial.mode),
    )
}

fn line(trial: &Trial) -> Result<Result<usize, Refusal>, String> {
    let (mut line, mut wanted_line) = (trial.line.clone(), trial.line.clone());
    let engine = ondajusta::line(&trial.fact, trial.arity, &mut line);
    let wanted = lent::line(&trial.fact, trial.arity, &mut wanted_line);
    same("the line's answer", engine, wanted.map_err(refusal))?;
    same_slices("byte of the line", &line, &wanted_line)?;
    Ok(engine)
}

fn same<T: PartialEq + Debug>(what: &str, engine: T, wanted: T) -> Agrees {
    if engine == wanted {
        return Ok(());
    }
    Err(format!(
        "{what}: {engine:?}, but by the second program {wanted:?}"
    ))
}

fn same_slices<T: PartialEq + Debug>(what: &str, engine: &[T], wanted: &[T]) -> Agrees {
    if engine == wanted {
        return Ok(());
    }
    let place = engine
        .iter()
        .zip(wanted)
        .take_while(|(a, b)| a == b)
        .count();
    let (engine, wanted) = (engine.get(place), wanted.get(place));
    Err(format!(
        "{what} {place}: {engine:?}, but by the second program {wanted:?}"
    ))
}

/// The second program's answers in the engine's types.
fn ran(answer: lent::Answer) -> Ran {
    Ran {
        outcome: match answer.outcome {
            second::Outcome::Done => Outcome::Done,
            second::Outcome::Failed => Outcome::Failed,
            second::Outcome::Steps => Outcome::Steps,
            second::Outcome::Room => Outcome::Room,
        },
        steps: answer.steps as usize,
        facts: answer.facts,
        next_blank: answer.next_blank,
        verdict: judged(answer.verdict),
    }
}

fn judged(verdict: lent::Verdict) -> Verdict {
    Verdict {
        acyclic: verdict.acyclic,
        generations: verdict.generations,
    }
}

fn refusal(refusal: second::Refusal) -> Refusal {
    Refusal {
        number: refusal.number,
        place: refusal.place,
    }
}
