//! Rules, atoms and terms.

/// Variables are numbered 0 to 15.
pub const VARIABLES: usize = 16;

/// A term of an atom: a variable or a constant.
#[derive(Clone, Copy, Debug, PartialEq, Eq)]
pub enum Term {
    Variable(usize),
    Constant(u32),
}

/// A relation with as many terms as its arity.
#[derive(Clone, Debug, PartialEq, Eq)]
pub struct Atom {
    pub relation: u8,
    pub terms: Vec<Term>,
}

/// A rule of a job.
#[derive(Clone, Debug, PartialEq, Eq)]
pub enum Rule {
    Tuple {
        body: Vec<Atom>,
        head: Vec<Atom>,
    },
    Equation {
        body: Vec<Atom>,
        left: usize,
        right: usize,
    },
}

impl Rule {
    pub fn body(&self) -> &[Atom] {
        match self {
            Rule::Tuple { body, .. } | Rule::Equation { body, .. } => body,
        }
    }
}

/// Says for each variable whether it occurs in the atoms.
pub fn variables(atoms: &[Atom]) -> [bool; VARIABLES] {
    let mut found = [false; VARIABLES];
    for term in atoms.iter().flat_map(|atom| &atom.terms) {
        if let Term::Variable(v) = *term {
            found[v] = true;
        }
    }
    found
}

/// The variables found only in the head, by ascending number.
pub fn existentials(body: &[Atom], head: &[Atom]) -> Vec<usize> {
    let in_body = variables(body);
    let in_head = variables(head);
    (0..VARIABLES)
        .filter(|&v| in_head[v] && !in_body[v])
        .collect()
}
