//! Small random jobs, the same for the same seed.

use crate::text;

/// A small generator of numbers, good enough to vary jobs.
pub struct Random {
    state: u64,
}

impl Random {
    pub fn new(seed: u64) -> Random {
        Random { state: seed }
    }

    /// The next 64 bits (the splitmix generator).
    fn next(&mut self) -> u64 {
        self.state = self.state.wrapping_add(0x9E37_79B9_7F4A_7C15);
        let mut bits = self.state;
        bits = (bits ^ (bits >> 30)).wrapping_mul(0xBF58_476D_1CE4_E5B9);
        bits = (bits ^ (bits >> 27)).wrapping_mul(0x94D0_49BB_1331_11EB);
        bits ^ (bits >> 31)
    }

    /// A number below `count`; 0 if there is none.
    pub fn below(&mut self, count: usize) -> usize {
        (self.next() % (count.max(1) as u64)) as usize
    }

    /// A number from `least` to `most`.
    pub fn between(&mut self, least: usize, most: usize) -> usize {
        least + self.below(most - least + 1)
    }

    /// True in `part` of a hundred cases.
    pub fn chance(&mut self, part: usize) -> bool {
        self.below(100) < part
    }

    pub fn shuffle<T>(&mut self, items: &mut [T]) {
        for last in (1..items.len()).rev() {
            items.swap(last, self.below(last + 1));
        }
    }
}

/// The kinds of random jobs.
#[derive(Clone, Copy, Debug, PartialEq, Eq)]
pub enum Kind {
    Valid,
    Damaged,
    Rules,
    Wide,
    Large,
}

impl Kind {
    pub fn of_word(word: &str) -> Option<Kind> {
        match word {
            "valid" => Some(Kind::Valid),
            "damaged" => Some(Kind::Damaged),
            "rules" => Some(Kind::Rules),
            "wide" => Some(Kind::Wide),
            "large" => Some(Kind::Large),
            _ => None,
        }
    }
}

/// One random job. The bytes depend on kind, seed and index only.
pub fn job(kind: Kind, seed: u64, index: u64) -> Vec<u8> {
    let mut start = Random::new(seed);
    let mut random = Random::new(start.next() ^ index.wrapping_mul(0xD1B5_4A32_D192_ED03));
    match kind {
        Kind::Valid => bytes(&valid_text(&mut random)),
        Kind::Rules => bytes(&rules_text(&mut random)),
        Kind::Wide => bytes(&wide_text(&mut random)),
        Kind::Large => bytes(&large_text(&mut random)),
        Kind::Damaged => damaged(&mut random),
    }
}

fn bytes(text: &str) -> Vec<u8> {
    text::make(text).unwrap_or_default()
}

/// What the jobs of one kind are drawn from.
struct Shape {
    arities: Vec<usize>,
    constants: usize,
    most_atoms: usize,
    /// In a hundred: how often a head leads to a later relation than its body.
    ahead: usize,
}

fn heading(shape: &Shape, budget: usize) -> String {
    let arities: Vec<String> = shape.arities.iter().map(usize::to_string).collect();
    format!("budget {budget}\narities {}\n", arities.join(" "))
}

fn arities(random: &mut Random, relations: usize, most: usize) -> Vec<usize> {
    (0..relations).map(|_| random.between(1, most)).collect()
}

/// Facts, tuple rules and equations for a short run.
fn valid_text(random: &mut Random) -> String {
    let relations = random.between(1, 4);
    let arities = arities(random, relations, 3);
    let shape = Shape {
        arities,
        constants: random.between(2, 4),
        most_atoms: 2,
        ahead: 50,
    };
    let budget = if random.chance(15) {
        random.below(2)
    } else {
        random.between(2, 16)
    };
    let mut text = heading(&shape, budget);
    let rules = if random.chance(5) {
        0
    } else {
        random.between(1, 6)
    };
    for _ in 0..rules {
        text += &rule(random, &shape, 35);
    }
    let facts = if random.chance(10) {
        random.below(2)
    } else {
        random.between(2, 7)
    };
    for _ in 0..facts {
        text += &fact(random, &shape);
    }
    text
}

/// Mostly tuple rules, over more relations, for verdict and ranks.
fn rules_text(random: &mut Random) -> String {
    let relations = random.between(2, 8);
    let arities = arities(random, relations, 4);
    let ahead = [50, 80, 95, 100][random.below(4)];
    let shape = Shape {
        arities,
        constants: 3,
        most_atoms: 3,
        ahead,
    };
    let mut text = heading(&shape, random.below(9));
    for _ in 0..random.between(1, 12) {
        text += &rule(random, &shape, 10);
    }
    for _ in 0..random.below(4) {
        text += &fact(random, &shape);
    }
    text
}

/// Rules of up to eight atoms on either side and up to eight places, over a few
/// facts. Each atom starts with a term that is known, mostly, and where the body
/// is long the head and the budget are short: the matches stay few.
fn wide_text(random: &mut Random) -> String {
    let most = [2, 3, 8][random.below(3)];
    let relations = random.between(1, 3);
    let shape = Shape {
        arities: arities(random, relations, most),
        constants: random.between(2, 3),
        most_atoms: 8,
        ahead: 50,
    };
    let mut text = heading(&shape, random.between(0, 3));
    for _ in 0..random.between(1, 3) {
        text += &wide_rule(random, &shape);
    }
    for _ in 0..random.between(1, 8) {
        text += &fact(random, &shape);
    }
    text
}

fn wide_rule(random: &mut Random, shape: &Shape) -> String {
    let mut variables = 0;
    let in_body = random.between(1, shape.most_atoms);
    let body = wide_atoms(random, shape, in_body, 50, &mut variables);
    if variables > 0 && random.chance(30) {
        let (left, right) = (random.below(variables), random.below(variables));
        return format!("{body} -> x{left} = x{right}.\n");
    }
    let in_head = random.between(1, if in_body > 3 { 2 } else { shape.most_atoms });
    let head = wide_atoms(random, shape, in_head, 25, &mut variables);
    format!("{body} -> {head}.\n")
}

/// Atoms whose first term is a variable that the rule has already, mostly.
fn wide_atoms(
    random: &mut Random,
    shape: &Shape,
    count: usize,
    fresh: usize,
    variables: &mut usize,
) -> String {
    let mut atoms = Vec::new();
    for _ in 0..count {
        let relation = random.below(shape.arities.len());
        let fresh_first = if random.chance(90) { 0 } else { fresh };
        let mut terms = vec![term(random, shape, fresh_first, variables)];
        for _ in 1..shape.arities[relation] {
            terms.push(term(random, shape, fresh, variables));
        }
        atoms.push(format!("r{relation}({})", terms.join(",")));
    }
    atoms.join(", ")
}

/// Up to all the facts that a job may have, over up to all relations, for runs
/// of some dozen steps. Bodies are one atom, so that a step stays short, or a key.
fn large_text(random: &mut Random) -> String {
    let relations = [2, 3, 5, 64][random.below(4)];
    let most = [2, 3, 8][random.below(3)];
    let shape = Shape {
        arities: arities(random, relations, most),
        constants: random.between(20, 2000),
        most_atoms: 1,
        ahead: 80,
    };
    let mut text = heading(&shape, random.below(40));
    for _ in 0..random.between(1, 4) {
        text += &rule(random, &shape, 25);
    }
    let facts = if random.chance(50) {
        random.between(1000, 1024)
    } else {
        random.between(100, 1000)
    };
    for _ in 0..facts {
        text += &fact(random, &shape);
    }
    text
}

fn rule(random: &mut Random, shape: &Shape, equations: usize) -> String {
    if random.chance(equations) {
        equation(random, shape)
    } else {
        tuple_rule(random, shape)
    }
}

/// A tuple rule. Its body stays at or before some relation, its head mostly
/// lies after it.
fn tuple_rule(random: &mut Random, shape: &Shape) -> String {
    let relations = shape.arities.len();
    let edge = random.below(relations);
    let body_count = if random.chance(4) {
        0
    } else {
        random.between(1, shape.most_atoms)
    };
    let mut variables = 0;
    let mut body = Vec::new();
    for _ in 0..body_count {
        let relation = random.below(edge + 1).min(random.below(edge + 1));
        body.push(atom(random, shape, relation, 70, &mut variables));
    }
    let mut head = Vec::new();
    for _ in 0..random.between(1, shape.most_atoms) {
        let ahead = edge + 1 < relations && random.chance(shape.ahead);
        let least = if ahead { edge + 1 } else { 0 };
        let relation = random.between(least, relations - 1);
        head.push(atom(random, shape, relation, 25, &mut variables));
    }
    format!("{} -> {}.\n", body.join(", "), head.join(", "))
}

/// An equation whose sides are variables of its body, often a key: two atoms
/// of one relation that share their first term.
fn equation(random: &mut Random, shape: &Shape) -> String {
    let relation = random.below(shape.arities.len());
    let arity = shape.arities[relation];
    if arity > 1 && random.chance(60) {
        let side = random.between(1, arity - 1);
        let other: Vec<String> = (arity..2 * arity).map(|v| format!("x{v}")).collect();
        let one: Vec<String> = (0..arity).map(|v| format!("x{v}")).collect();
        let shared = [&one[..1], &other[1..]].concat();
        let (one, shared) = (one.join(","), shared.join(","));
        return format!(
            "r{relation}({one}), r{relation}({shared}) -> x{side} = x{}.\n",
            arity + side
        );
    }
    let mut variables = 0;
    let mut body = vec![atom(random, shape, relation, 70, &mut variables)];
    if random.chance(50) {
        let second = random.below(shape.arities.len());
        body.push(atom(random, shape, second, 70, &mut variables));
    }
    if variables == 0 {
        return tuple_rule(random, shape);
    }
    let (left, right) = (random.below(variables), random.below(variables));
    format!("{} -> x{left} = x{right}.\n", body.join(", "))
}

/// An atom of a relation.
fn atom(
    random: &mut Random,
    shape: &Shape,
    relation: usize,
    fresh: usize,
    variables: &mut usize,
) -> String {
    let mut terms = Vec::new();
    for _ in 0..shape.arities[relation] {
        terms.push(term(random, shape, fresh, variables));
    }
    format!("r{relation}({})", terms.join(","))
}

/// A new variable in `fresh` of a hundred cases, a constant in a few, and
/// otherwise a variable that the rule has already.
fn term(random: &mut Random, shape: &Shape, fresh: usize, variables: &mut usize) -> String {
    if random.chance(4) {
        return random.below(shape.constants).to_string();
    }
    if *variables < 16 && (*variables == 0 || random.chance(fresh)) {
        *variables += 1;
        return format!("x{}", *variables - 1);
    }
    format!("x{}", random.below(*variables))
}

/// A fact, more often of an early relation.
fn fact(random: &mut Random, shape: &Shape) -> String {
    let relations = shape.arities.len();
    let relation = random.below(relations).min(random.below(relations));
    let values: Vec<String> = (0..shape.arities[relation])
        .map(|_| {
            let mark = if random.chance(30) { "#" } else { "" };
            format!("{mark}{}", random.below(shape.constants))
        })
        .collect();
    format!("r{relation}({}).\n", values.join(","))
}

/// A valid job that is cut, made longer or changed in a few bytes.
fn damaged(random: &mut Random) -> Vec<u8> {
    let mut job = bytes(&valid_text(random));
    if random.chance(1) {
        job.resize(65_536 + random.below(3), 0);
        return job;
    }
    for _ in 0..random.between(1, 2) {
        match random.below(10) {
            0 | 1 => job.truncate(random.below(job.len())),
            2 => job.extend((0..random.between(1, 3)).map(|_| 0)),
            _ => change_byte(random, &mut job),
        }
    }
    job
}

/// Puts a byte of interest somewhere; the first bytes are spared mostly, so
/// that faults further on come to light.
fn change_byte(random: &mut Random, job: &mut [u8]) {
    let spared = if random.chance(85) {
        7.min(job.len() / 2)
    } else {
        0
    };
    let place = spared + random.below(job.len() - spared);
    let values = [0, 1, 2, 3, 4, 5, 6, 8, 9, 15, 16, 64, 65, 128, 255];
    if let Some(byte) = job.get_mut(place) {
        *byte = values[random.below(values.len())];
    }
}

#[cfg(test)]
mod tests {
    use super::*;

    #[test]
    fn valid_jobs_are_accepted() {
        for index in 0..500 {
            for kind in [Kind::Valid, Kind::Rules, Kind::Wide, Kind::Large] {
                assert!(crate::read(&job(kind, 7, index)).is_ok());
            }
        }
    }

    #[test]
    fn the_same_seed_gives_the_same_job() {
        assert_eq!(job(Kind::Valid, 3, 5), job(Kind::Valid, 3, 5));
        assert_ne!(job(Kind::Valid, 3, 5), job(Kind::Valid, 4, 5));
    }

    #[test]
    fn damaged_jobs_meet_every_refusal() {
        let mut met = [false; 11];
        for index in 0..5000 {
            if let Err(refusal) = crate::read(&job(Kind::Damaged, 1, index)) {
                met[usize::from(refusal.number)] = true;
            }
        }
        assert_eq!(met[2..], [true; 9]);
    }
}
