//! The job layout and its numbered refusals.

use crate::instance::{Fact, Value, PLACES};
use crate::rules::{variables, Atom, Rule, Term, VARIABLES};

/// No job is longer than this.
pub const MOST_BYTES: usize = 65_535;

const LARGEST_CONSTANT: u32 = 2_147_483_647;
const LARGEST_BLANK: u32 = 65_535;

/// A job that has passed every test.
#[derive(Clone, Debug, PartialEq, Eq)]
pub struct Job {
    pub budget: u32,
    pub arities: Vec<u8>,
    pub rules: Vec<Rule>,
    /// The facts as the job lists them, repeats included.
    pub facts: Vec<Fact>,
}

/// Why a job isn't accepted, and where.
#[derive(Clone, Copy, Debug, PartialEq, Eq)]
pub struct Refusal {
    pub number: u8,
    pub place: usize,
}

type Read<T> = Result<T, Refusal>;

fn refuse<T>(number: u8, place: usize) -> Read<T> {
    Err(Refusal { number, place })
}

/// Reads a whole job, front to back. The first fault decides.
pub fn read(bytes: &[u8]) -> Read<Job> {
    if bytes.len() > MOST_BYTES {
        return refuse(2, 0);
    }
    let mut reader = Reader { bytes, place: 0 };
    reader.mark()?;
    reader.version()?;
    let budget = reader.budget()?;
    let arities = reader.arities()?;
    let rules = reader.rules(&arities)?;
    let facts = reader.facts(&arities)?;
    reader.end()?;
    Ok(Job {
        budget,
        arities,
        rules,
        facts,
    })
}

/// The job's bytes and the place of the next field.
struct Reader<'a> {
    bytes: &'a [u8],
    place: usize,
}

impl Reader<'_> {
    /// Takes a field of `N` bytes, or refuses at its start.
    fn field<const N: usize>(&mut self) -> Read<[u8; N]> {
        let rest = &self.bytes[self.place..];
        let Some(field) = rest.first_chunk::<N>() else {
            return refuse(3, self.place);
        };
        self.place += N;
        Ok(*field)
    }

    fn byte(&mut self) -> Read<u8> {
        let [byte] = self.field::<1>()?;
        Ok(byte)
    }

    /// Takes a number of `N` bytes that has to lie between two limits.
    fn number<const N: usize>(&mut self, least: u32, most: u32) -> Read<u32> {
        let place = self.place;
        let field = self.field::<N>()?;
        let number = field
            .iter()
            .rev()
            .fold(0, |sum, &byte| (sum << 8) | u32::from(byte));
        if number < least || number > most {
            return refuse(6, place);
        }
        Ok(number)
    }

    fn mark(&mut self) -> Read<()> {
        if self.field::<3>()? != *b"CHS" {
            return refuse(4, 0);
        }
        Ok(())
    }

    fn version(&mut self) -> Read<()> {
        if self.field::<2>()? != [1, 0] {
            return refuse(5, 3);
        }
        Ok(())
    }

    fn budget(&mut self) -> Read<u32> {
        self.number::<2>(0, 4096)
    }

    fn arities(&mut self) -> Read<Vec<u8>> {
        let count = self.number::<1>(1, 64)?;
        let mut arities = Vec::new();
        for _ in 0..count {
            arities.push(self.number::<1>(1, PLACES as u32)? as u8);
        }
        Ok(arities)
    }

    fn rules(&mut self, arities: &[u8]) -> Read<Vec<Rule>> {
        let count = self.number::<1>(0, 64)?;
        let mut rules = Vec::new();
        for _ in 0..count {
            rules.push(self.rule(arities)?);
        }
        Ok(rules)
    }

    fn rule(&mut self, arities: &[u8]) -> Read<Rule> {
        let place = self.place;
        match self.byte()? {
            1 => self.tuple_rule(arities),
            2 => self.equation_rule(arities),
            _ => refuse(7, place),
        }
    }

    fn tuple_rule(&mut self, arities: &[u8]) -> Read<Rule> {
        let body_count = self.number::<1>(0, 8)?;
        let head_count = self.number::<1>(1, 8)?;
        let body = self.atoms(body_count, arities)?;
        let head = self.atoms(head_count, arities)?;
        Ok(Rule::Tuple { body, head })
    }

    fn equation_rule(&mut self, arities: &[u8]) -> Read<Rule> {
        let count = self.number::<1>(1, 8)?;
        let body = self.atoms(count, arities)?;
        let left = self.side(&body)?;
        let right = self.side(&body)?;
        Ok(Rule::Equation { body, left, right })
    }

    /// One side of an equation: a variable that occurs in the body.
    fn side(&mut self, body: &[Atom]) -> Read<usize> {
        let place = self.place;
        let side = self.number::<1>(0, VARIABLES as u32 - 1)? as usize;
        if !variables(body)[side] {
            return refuse(9, place);
        }
        Ok(side)
    }

    fn atoms(&mut self, count: u32, arities: &[u8]) -> Read<Vec<Atom>> {
        let mut atoms = Vec::new();
        for _ in 0..count {
            atoms.push(self.atom(arities)?);
        }
        Ok(atoms)
    }

    /// A declared relation, with its arity.
    fn relation(&mut self, arities: &[u8]) -> Read<(u8, u8)> {
        let place = self.place;
        let relation = self.byte()?;
        match arities.get(usize::from(relation)) {
            Some(&arity) => Ok((relation, arity)),
            None => refuse(8, place),
        }
    }

    fn atom(&mut self, arities: &[u8]) -> Read<Atom> {
        let (relation, arity) = self.relation(arities)?;
        let mut terms = Vec::new();
        for _ in 0..arity {
            terms.push(self.term()?);
        }
        Ok(Atom { relation, terms })
    }

    fn term(&mut self) -> Read<Term> {
        let place = self.place;
        match self.byte()? {
            0 => {
                let number = self.number::<4>(0, VARIABLES as u32 - 1)?;
                Ok(Term::Variable(number as usize))
            }
            1 => Ok(Term::Constant(self.number::<4>(0, LARGEST_CONSTANT)?)),
            _ => refuse(7, place),
        }
    }

    fn facts(&mut self, arities: &[u8]) -> Read<Vec<Fact>> {
        let count = self.number::<2>(0, 1024)?;
        let mut facts = Vec::new();
        for _ in 0..count {
            facts.push(self.fact(arities)?);
        }
        Ok(facts)
    }

    fn fact(&mut self, arities: &[u8]) -> Read<Fact> {
        let (relation, arity) = self.relation(arities)?;
        let mut values = [Value::NONE; PLACES];
        for value in &mut values[..usize::from(arity)] {
            *value = self.value()?;
        }
        Ok(Fact { relation, values })
    }

    fn value(&mut self) -> Read<Value> {
        let place = self.place;
        match self.byte()? {
            1 => Ok(Value::constant(self.number::<4>(0, LARGEST_CONSTANT)?)),
            2 => Ok(Value::blank(self.number::<4>(0, LARGEST_BLANK)?)),
            _ => refuse(7, place),
        }
    }

    fn end(&self) -> Read<()> {
        if self.place < self.bytes.len() {
            return refuse(10, self.place);
        }
        Ok(())
    }
}
