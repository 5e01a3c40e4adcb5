//! What a run leaves in lent slices that are longer than it needs, as text.

use crate::lent::{run, FACT, RANKS, WORDS};
use crate::matching::Mode;

/// How many words are lent beyond those that a run sets.
const BEYOND: usize = 8;

/// What each word holds when it is lent.
const LENT: u16 = 7;

/// The zeros behind the last fact, the words beyond, and all ranks, eight to a line.
pub fn of_bytes(bytes: &[u8]) -> String {
    let mut words = vec![u32::from(LENT); WORDS + BEYOND];
    let mut ranks = vec![LENT; RANKS + BEYOND];
    let answer = run(bytes, &mut words, &mut ranks, Mode::Narrowed);
    let used = answer.map_or(0, |ran| ran.facts * FACT);
    let zeros = words[used..WORDS].iter().filter(|&&word| word == 0).count();
    let mut text = format!("zeros {zeros}\nbeyond\n");
    text += &table(&words[WORDS..]);
    text += "ranks\n";
    text + &table(&ranks)
}

/// Numbers, eight to a line.
fn table<N: ToString>(numbers: &[N]) -> String {
    let mut text = String::new();
    for eight in numbers.chunks(8) {
        let row: Vec<String> = eight.iter().map(N::to_string).collect();
        text += &row.join(" ");
        text += "\n";
    }
    text
}
