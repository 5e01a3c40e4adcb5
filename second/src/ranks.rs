//! The dependency graph, weak acyclicity, ranks and generations.

use crate::job::Job;
use crate::rules::{existentials, variables, Atom, Rule, Term};

/// The rank of a position that has no largest number of special edges.
pub const INFINITE: u16 = 65_535;

/// A position counts the places of all relations one after the other.
type Position = usize;

#[derive(Clone, Copy, Debug, PartialEq, Eq, PartialOrd, Ord)]
struct Edge {
    from: Position,
    to: Position,
    special: bool,
}

/// The verdict on a job's rules.
#[derive(Clone, Debug, PartialEq, Eq)]
pub struct Ranks {
    pub acyclic: bool,
    pub generations: u16,
    /// The ranks of each relation's places.
    pub ranks: Vec<Vec<u16>>,
}

/// Gives the verdict, the rank of each position and the generations.
pub fn ranks(job: &Job) -> Ranks {
    let starts = starts(&job.arities);
    let count = job.arities.iter().map(|&arity| usize::from(arity)).sum();
    let edges = edges(&job.rules, &starts);
    let reach = Reach::new(count, &edges);
    let looping: Vec<Edge> = edges
        .iter()
        .copied()
        .filter(|edge| edge.special && reach.has(edge.to, edge.from))
        .collect();
    let infinite: Vec<bool> = (0..count)
        .map(|position| looping.iter().any(|edge| reach.has(edge.to, position)))
        .collect();
    let flat = longest_paths(&edges, &infinite);
    Ranks {
        acyclic: looping.is_empty(),
        generations: flat
            .iter()
            .copied()
            .filter(|&rank| rank != INFINITE)
            .max()
            .unwrap_or(0),
        ranks: by_relation(&flat, &job.arities, &starts),
    }
}

/// The first position of each relation.
fn starts(arities: &[u8]) -> Vec<Position> {
    let mut next = 0;
    let mut starts = Vec::new();
    for &arity in arities {
        starts.push(next);
        next += usize::from(arity);
    }
    starts
}

/// All edges of the tuple rules, each once.
fn edges(rules: &[Rule], starts: &[Position]) -> Vec<Edge> {
    let mut edges = Vec::new();
    for rule in rules {
        if let Rule::Tuple { body, head } = rule {
            add_edges(body, head, starts, &mut edges);
        }
    }
    edges.sort_unstable();
    edges.dedup();
    edges
}

/// Adds the edges of one tuple rule. A body variable that the head lacks
/// gives none.
fn add_edges(body: &[Atom], head: &[Atom], starts: &[Position], edges: &mut Vec<Edge>) {
    let in_head = variables(head);
    let existentials = existentials(body, head);
    for (from, source) in occurrences(body, starts) {
        if !in_head[source] {
            continue;
        }
        for (to, target) in occurrences(head, starts) {
            let special = existentials.contains(&target);
            if special || target == source {
                edges.push(Edge { from, to, special });
            }
        }
    }
}

/// The positions of the atoms that hold a variable, with that variable.
fn occurrences(atoms: &[Atom], starts: &[Position]) -> Vec<(Position, usize)> {
    let mut found = Vec::new();
    for atom in atoms {
        let start = starts[usize::from(atom.relation)];
        for (place, term) in atom.terms.iter().enumerate() {
            if let Term::Variable(v) = *term {
                found.push((start + place, v));
            }
        }
    }
    found
}

/// Which position a path of any length, also none, leads to from which.
/// There are at most 512 positions, so a row is eight words.
struct Reach {
    rows: Vec<[u64; 8]>,
}

impl Reach {
    fn new(count: usize, edges: &[Edge]) -> Reach {
        let mut reach = Reach {
            rows: vec![[0; 8]; count],
        };
        for position in 0..count {
            reach.set(position, position);
        }
        for edge in edges {
            reach.set(edge.from, edge.to);
        }
        for middle in 0..count {
            reach.close_over(middle);
        }
        reach
    }

    fn set(&mut self, from: Position, to: Position) {
        self.rows[from][to / 64] |= 1 << (to % 64);
    }

    fn has(&self, from: Position, to: Position) -> bool {
        self.rows[from][to / 64] >> (to % 64) & 1 == 1
    }

    /// Whatever leads to the middle leads to all that the middle leads to.
    fn close_over(&mut self, middle: Position) {
        let onward = self.rows[middle];
        for from in 0..self.rows.len() {
            if self.has(from, middle) {
                for (word, more) in self.rows[from].iter_mut().zip(onward) {
                    *word |= more;
                }
            }
        }
    }
}

/// The largest number of special edges on a path that ends in each position.
fn longest_paths(edges: &[Edge], infinite: &[bool]) -> Vec<u16> {
    let start = |&endless: &bool| if endless { INFINITE } else { 0 };
    let mut ranks: Vec<u16> = infinite.iter().map(start).collect();
    let mut changed = true;
    while changed {
        changed = false;
        for edge in edges.iter().filter(|edge| !infinite[edge.to]) {
            let rank = ranks[edge.from] + u16::from(edge.special);
            if rank > ranks[edge.to] {
                ranks[edge.to] = rank;
                changed = true;
            }
        }
    }
    ranks
}

fn by_relation(flat: &[u16], arities: &[u8], starts: &[Position]) -> Vec<Vec<u16>> {
    let places =
        |(&start, &arity): (&Position, &u8)| flat[start..start + usize::from(arity)].to_vec();
    starts.iter().zip(arities).map(places).collect()
}
