//! Ranks by rounds: a second way to the same ranks.
//!
//! Ranks climb from 0 until no rule lifts one, under a cap for the special
//! edges. The cap grows while some position has the rank just below it; what
//! is at the cap in the end has no largest number.

use crate::instance::PLACES;
use crate::job::Job;
use crate::ranks::{Ranks, INFINITE};
use crate::rules::{Atom, Rule, Term, VARIABLES};

/// The positions of 64 relations of 8 places.
const POSITIONS: usize = 64 * PLACES;

/// A variable at a position.
struct Spot {
    variable: usize,
    position: usize,
}

/// What a tuple rule says about ranks.
struct Lift {
    body: Vec<Spot>,
    head: Vec<Spot>,
}

/// Gives the verdict, the rank of each position and the generations.
pub fn ranks(job: &Job) -> Ranks {
    let lifts: Vec<Lift> = job.rules.iter().filter_map(lift).collect();
    let mut ranks = [0; POSITIONS];
    let cap = level(&lifts, &mut ranks);
    for rank in &mut ranks {
        if *rank >= cap {
            *rank = INFINITE;
        }
    }
    read_off(&ranks, &job.arities)
}

fn lift(rule: &Rule) -> Option<Lift> {
    match rule {
        Rule::Tuple { body, head } => Some(Lift {
            body: spots(body),
            head: spots(head),
        }),
        Rule::Equation { .. } => None,
    }
}

fn spots(atoms: &[Atom]) -> Vec<Spot> {
    let mut spots = Vec::new();
    for atom in atoms {
        for (place, term) in atom.terms.iter().enumerate() {
            if let Term::Variable(variable) = *term {
                let position = PLACES * usize::from(atom.relation) + place;
                spots.push(Spot { variable, position });
            }
        }
    }
    spots
}

/// Settles the ranks under larger and larger caps, and tells the last.
fn level(lifts: &[Lift], ranks: &mut [u16; POSITIONS]) -> u16 {
    let mut cap = 0;
    loop {
        cap = larger(cap);
        while round(lifts, cap, ranks) {}
        if usize::from(cap) >= POSITIONS || !ranks.contains(&(cap - 1)) {
            return cap;
        }
    }
}

/// The cap to try after this one: half as large again, 2 at first, the number
/// of positions at last.
fn larger(cap: u16) -> u16 {
    match cap {
        0 => 2,
        1..=340 => cap + cap / 2 + 1,
        _ => POSITIONS as u16,
    }
}

/// One round of all rules; says whether it lifted a rank.
fn round(lifts: &[Lift], cap: u16, ranks: &mut [u16; POSITIONS]) -> bool {
    let mut lifted = false;
    for lift in lifts {
        lifted |= raise(lift, cap, ranks);
    }
    lifted
}

/// Lifts the head's positions: a body variable's to its largest rank in the
/// body, an existential's to one more than the largest of the variables that
/// body and head share, but not above the cap.
fn raise(lift: &Lift, cap: u16, ranks: &mut [u16; POSITIONS]) -> bool {
    let mut best = [0; VARIABLES];
    for spot in &lift.body {
        best[spot.variable] = best[spot.variable].max(ranks[spot.position] + 1);
    }
    let top = lift.head.iter().map(|spot| best[spot.variable]).max();
    let special = top.unwrap_or(0).min(cap);
    let mut lifted = false;
    for spot in &lift.head {
        let offer = match best[spot.variable] {
            0 => special,
            more => more - 1,
        };
        if ranks[spot.position] < offer {
            ranks[spot.position] = offer;
            lifted = true;
        }
    }
    lifted
}

fn read_off(ranks: &[u16; POSITIONS], arities: &[u8]) -> Ranks {
    let finite = ranks.iter().copied().filter(|&rank| rank != INFINITE);
    Ranks {
        acyclic: !ranks.contains(&INFINITE),
        generations: finite.max().unwrap_or(0),
        ranks: ranks
            .chunks_exact(PLACES)
            .zip(arities)
            .map(|(row, &arity)| row[..usize::from(arity)].to_vec())
            .collect(),
    }
}

#[cfg(test)]
mod tests {
    use crate::random::{job, Kind};

    #[test]
    fn both_ways_give_the_same_ranks() {
        for index in 0..5000 {
            for kind in [Kind::Rules, Kind::Valid] {
                let job = crate::read(&job(kind, 11, index)).expect("a valid job");
                assert_eq!(super::ranks(&job), crate::ranks(&job));
            }
        }
    }
}
