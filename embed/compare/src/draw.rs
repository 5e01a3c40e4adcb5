//! What one trial is given, drawn from the seed and its index.

use second::random::{self, Kind, Random};
use second::Mode;

/// A job, and what is lent to its run and to a line.
pub struct Trial {
    pub job: Vec<u8>,
    pub kind: Kind,
    /// How the second program searches.
    pub mode: Mode,
    pub words: Vec<u32>,
    pub ranks: Vec<u16>,
    /// The words, the arity and the lent bytes of a line.
    pub fact: Vec<u32>,
    pub arity: usize,
    pub line: Vec<u8>,
}

impl Trial {
    pub fn new(seed: u64, index: u64) -> Trial {
        let mut random = Random::new(!seed ^ index.wrapping_mul(0xA24B_AED4_963E_E407));
        let kind = kind(&mut random);
        let plain = kind != Kind::Large && kind != Kind::Wide && random.chance(30);
        let words = length(&mut random, ondajusta::WORDS);
        let ranks = length(&mut random, ondajusta::RANKS);
        let stamp = random.below(1 << 30) as u32;
        Trial {
            job: random::job(kind, seed, index),
            kind,
            mode: if plain { Mode::Plain } else { Mode::Narrowed },
            words: vec![stamp; words],
            ranks: vec![stamp as u16; ranks],
            fact: fact(&mut random),
            arity: random.between(0, 9),
            line: vec![stamp as u8; length(&mut random, ondajusta::LINE)],
        }
    }

    pub fn name(&self) -> String {
        format!("{:?}", self.kind).to_lowercase()
    }
}

fn kind(random: &mut Random) -> Kind {
    match random.below(100) {
        0..=2 => Kind::Large,
        3..=14 => Kind::Rules,
        15..=29 => Kind::Wide,
        30..=64 => Kind::Damaged,
        _ => Kind::Valid,
    }
}

/// The least length or a little more; in a few cases less.
fn length(random: &mut Random, least: usize) -> usize {
    if random.chance(2) {
        return if random.chance(50) {
            least - 1
        } else {
            random.below(least)
        };
    }
    least + random.below(4)
}

/// Nine words, mostly: a relation near the limit, and small, large and blank values.
fn fact(random: &mut Random) -> Vec<u32> {
    let count = if random.chance(5) {
        random.below(9)
    } else {
        random.between(9, 11)
    };
    let mut words = Vec::new();
    for place in 0..count {
        let word = match (place, random.below(4)) {
            (0, _) => random.below(68),
            (_, 0) => random.below(20),
            (_, 1) => random.below(1 << 31),
            (_, 2) => (1 << 31) + random.below(70_000),
            _ => random.below(1 << 32),
        };
        words.push(word as u32);
    }
    words
}
