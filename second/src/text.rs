//! The readable text from which jobs are made.
//!
//! The text says what bytes to write, not what is allowed: numbers beyond
//! their limits, undeclared relations and wrong tags are written as they
//! stand, so that refused jobs can be made too.

use crate::instance::{Fact, Value};
use crate::job::Job;
use crate::listing::value_text;
use crate::rules::{Atom, Rule, Term};

/// The longest that a text makes a job by padding.
const MOST_PADDED: usize = 1_000_000;

/// A term or value as it is written: tag and number.
type Written = (u8, u32);

struct WrittenAtom {
    relation: u8,
    terms: Vec<Written>,
}

enum WrittenRule {
    Tuple {
        body: Vec<WrittenAtom>,
        head: Vec<WrittenAtom>,
    },
    Equation {
        body: Vec<WrittenAtom>,
        left: u8,
        right: u8,
    },
}

/// A change of the finished bytes.
enum Edit {
    Truncate(usize),
    Pad(usize),
    Set(usize, Vec<u8>),
    Append(Vec<u8>),
}

/// What the lines of a text say.
#[derive(Default)]
struct Draft {
    budget: u16,
    arities: Vec<u8>,
    rules: Vec<WrittenRule>,
    facts: Vec<WrittenAtom>,
    raw: Option<Vec<u8>>,
    edits: Vec<Edit>,
}

type Made<T> = Result<T, String>;

/// Makes the bytes of a job from its text.
pub fn make(text: &str) -> Made<Vec<u8>> {
    let mut draft = Draft::default();
    for (index, line) in text.lines().enumerate() {
        let line = without_comment(line);
        read_line(&mut draft, line).map_err(|fault| format!("line {}: {fault}", index + 1))?;
    }
    let mut bytes = match draft.raw.take() {
        Some(_) if draft.says_a_job() => return Err("raw bytes stand alone".to_string()),
        Some(raw) => raw,
        None => draft.lay_out()?,
    };
    for edit in &draft.edits {
        apply(edit, &mut bytes)?;
    }
    Ok(bytes)
}

fn without_comment(line: &str) -> &str {
    let end = line
        .find("//")
        .unwrap_or(line.len())
        .min(line.find(';').unwrap_or(line.len()));
    line[..end].trim()
}

fn read_line(draft: &mut Draft, line: &str) -> Made<()> {
    let (word, rest) = line.split_once(char::is_whitespace).unwrap_or((line, ""));
    match word {
        "" => {}
        "budget" => draft.budget = number(rest)?,
        "arities" => draft.arities = rest.split_whitespace().map(number).collect::<Made<_>>()?,
        "raw" => draft
            .raw
            .get_or_insert_with(Vec::new)
            .extend(hex_bytes(rest)?),
        "truncate" => draft.edits.push(Edit::Truncate(number(rest)?)),
        "pad" => draft.edits.push(pad_edit(rest)?),
        "append" => draft.edits.push(Edit::Append(hex_bytes(rest)?)),
        "set" => draft.edits.push(set_edit(rest)?),
        "repeat" => repeat(draft, rest)?,
        _ => statement(draft, line)?,
    }
    Ok(())
}

fn number<T: std::str::FromStr>(text: &str) -> Made<T> {
    text.trim()
        .parse()
        .map_err(|_| format!("`{text}` is no number that fits"))
}

fn hex_bytes(text: &str) -> Made<Vec<u8>> {
    let byte = |two: &str| u8::from_str_radix(two, 16).map_err(|_| format!("`{two}` is no byte"));
    text.split_whitespace().map(byte).collect()
}

/// `pad LENGTH`: zero bytes up to that length.
fn pad_edit(text: &str) -> Made<Edit> {
    let length = number(text)?;
    if length > MOST_PADDED {
        return Err(format!("no more than {MOST_PADDED} bytes are padded"));
    }
    Ok(Edit::Pad(length))
}

/// `set PLACE HEX..`
fn set_edit(text: &str) -> Made<Edit> {
    let (place, bytes) = text.split_once(' ').ok_or("set wants a place and bytes")?;
    Ok(Edit::Set(number(place)?, hex_bytes(bytes)?))
}

/// `repeat FIRST LAST LINE`: the line once for each number, in the place of
/// each `@`.
fn repeat(draft: &mut Draft, text: &str) -> Made<()> {
    let mut parts = text.splitn(3, ' ');
    let mut next = || parts.next().ok_or("repeat wants two numbers and a line");
    let (first, last, line) = (number::<u32>(next()?)?, number::<u32>(next()?)?, next()?);
    for i in first..=last {
        read_line(draft, &line.replace('@', &i.to_string()))?;
    }
    Ok(())
}

/// A rule or a fact, closed by a full stop.
fn statement(draft: &mut Draft, line: &str) -> Made<()> {
    let line = line
        .strip_suffix('.')
        .ok_or("a rule or fact ends with a full stop")?;
    let Some((body, head)) = line.split_once("->") else {
        let fact = single_atom(line, &draft.arities)?;
        draft.facts.push(fact);
        return Ok(());
    };
    let body = atoms(body, &draft.arities)?;
    let rule = match head.split_once('=') {
        Some((left, right)) => WrittenRule::Equation {
            body,
            left: side(left)?,
            right: side(right)?,
        },
        None => WrittenRule::Tuple {
            body,
            head: atoms(head, &draft.arities)?,
        },
    };
    draft.rules.push(rule);
    Ok(())
}

fn side(text: &str) -> Made<u8> {
    let text = text.trim();
    number(
        text.strip_prefix('x')
            .ok_or("a side of an equation is a variable")?,
    )
}

/// Atoms with commas between them; none at all is allowed.
fn atoms(text: &str, arities: &[u8]) -> Made<Vec<WrittenAtom>> {
    let mut found = Vec::new();
    let mut rest = text.trim();
    while !rest.is_empty() {
        let end = rest.find(')').ok_or("an atom ends with a bracket")? + 1;
        found.push(single_atom(&rest[..end], arities)?);
        rest = rest[end..].trim();
        if let Some(more) = rest.strip_prefix(',') {
            rest = more.trim();
            if rest.is_empty() {
                return Err("an atom follows a comma".to_string());
            }
        } else if !rest.is_empty() {
            return Err("a comma stands between atoms".to_string());
        }
    }
    Ok(found)
}

/// `rN(term,...)` with as many terms as a declared relation's arity.
fn single_atom(text: &str, arities: &[u8]) -> Made<WrittenAtom> {
    let form = || format!("`{text}` isn't of the form r0(x0,1,#2)");
    let inner = text.trim().strip_suffix(')').ok_or_else(form)?;
    let (relation, terms) = inner.split_once('(').ok_or_else(form)?;
    let relation: u8 = number(relation.trim().strip_prefix('r').ok_or_else(form)?)?;
    let terms = terms.split(',').map(term).collect::<Made<Vec<Written>>>()?;
    match arities.get(usize::from(relation)) {
        Some(&arity) if usize::from(arity) != terms.len() => Err(format!(
            "`{text}` has {} terms, its arity is {arity}",
            terms.len()
        )),
        _ => Ok(WrittenAtom { relation, terms }),
    }
}

/// `x` before a variable, `#` before a blank, a bare number for a constant.
fn term(text: &str) -> Made<Written> {
    let text = text.trim();
    if let Some(variable) = text.strip_prefix('x') {
        return Ok((0, number(variable)?));
    }
    if let Some(blank) = text.strip_prefix('#') {
        return Ok((2, number(blank)?));
    }
    Ok((1, number(text)?))
}

impl Draft {
    fn says_a_job(&self) -> bool {
        !(self.arities.is_empty() && self.rules.is_empty() && self.facts.is_empty())
    }

    /// Writes the job in the order of the layout.
    fn lay_out(&self) -> Made<Vec<u8>> {
        let mut bytes = b"CHS\x01\x00".to_vec();
        bytes.extend(self.budget.to_le_bytes());
        bytes.push(count(self.arities.len())?);
        bytes.extend(&self.arities);
        bytes.push(count(self.rules.len())?);
        for rule in &self.rules {
            write_rule(rule, &mut bytes)?;
        }
        let facts = u16::try_from(self.facts.len()).map_err(|_| "too many facts to count")?;
        bytes.extend(facts.to_le_bytes());
        write_atoms(&self.facts, &mut bytes);
        Ok(bytes)
    }
}

fn count(number: usize) -> Made<u8> {
    u8::try_from(number).map_err(|_| format!("{number} doesn't fit in a byte"))
}

fn write_rule(rule: &WrittenRule, bytes: &mut Vec<u8>) -> Made<()> {
    match rule {
        WrittenRule::Tuple { body, head } => {
            bytes.extend([1, count(body.len())?, count(head.len())?]);
            write_atoms(body, bytes);
            write_atoms(head, bytes);
        }
        WrittenRule::Equation { body, left, right } => {
            bytes.extend([2, count(body.len())?]);
            write_atoms(body, bytes);
            bytes.extend([*left, *right]);
        }
    }
    Ok(())
}

fn write_atoms(atoms: &[WrittenAtom], bytes: &mut Vec<u8>) {
    for atom in atoms {
        bytes.push(atom.relation);
        for &(tag, number) in &atom.terms {
            bytes.push(tag);
            bytes.extend(number.to_le_bytes());
        }
    }
}

fn apply(edit: &Edit, bytes: &mut Vec<u8>) -> Made<()> {
    match edit {
        Edit::Truncate(length) => bytes.truncate(*length),
        Edit::Pad(length) => bytes.resize((*length).max(bytes.len()), 0),
        Edit::Append(more) => bytes.extend(more),
        Edit::Set(place, new) => {
            let end = place.saturating_add(new.len());
            let old = bytes.get_mut(*place..end);
            old.ok_or_else(|| format!("no byte to set at {place}"))?
                .copy_from_slice(new);
        }
    }
    Ok(())
}

/// Writes the text of a job, from which `make` makes the same bytes again.
pub fn of_job(job: &Job) -> String {
    let arities: Vec<String> = job.arities.iter().map(u8::to_string).collect();
    let mut text = format!("budget {}\narities {}\n", job.budget, arities.join(" "));
    for rule in &job.rules {
        text += &rule_text(rule);
    }
    for fact in &job.facts {
        text += &fact_text(fact, job.arities[usize::from(fact.relation)]);
    }
    text
}

fn rule_text(rule: &Rule) -> String {
    match rule {
        Rule::Tuple { body, head } => format!("{}-> {}.\n", body_text(body), atoms_text(head)),
        Rule::Equation { body, left, right } => {
            format!("{}-> x{left} = x{right}.\n", body_text(body))
        }
    }
}

fn body_text(body: &[Atom]) -> String {
    let space = if body.is_empty() { "" } else { " " };
    atoms_text(body) + space
}

fn atoms_text(atoms: &[Atom]) -> String {
    let texts: Vec<String> = atoms.iter().map(atom_text).collect();
    texts.join(", ")
}

fn atom_text(atom: &Atom) -> String {
    let terms: Vec<String> = atom.terms.iter().map(term_text).collect();
    format!("r{}({})", atom.relation, terms.join(","))
}

fn term_text(term: &Term) -> String {
    match term {
        Term::Variable(v) => format!("x{v}"),
        Term::Constant(c) => c.to_string(),
    }
}

fn fact_text(fact: &Fact, arity: u8) -> String {
    let values: Vec<String> = fact.values[..usize::from(arity)]
        .iter()
        .map(|&value: &Value| value_text(value))
        .collect();
    format!("r{}({}).\n", fact.relation, values.join(","))
}

#[cfg(test)]
mod tests {
    use super::*;

    const TEXT: &str =
        "budget 10\narities 1 2\n-> r0(x0).\nr0(x0), r1(x0,7) -> r1(x0,x1), r0(x1).\n\
                        r1(x0,x1), r1(x0,x2) -> x1 = x2.\nr0(1).\nr1(1,#0).\n";

    #[test]
    fn text_and_job_agree() {
        let bytes = make(TEXT).expect("the text is well formed");
        let job = crate::read(&bytes).expect("the job is accepted");
        assert_eq!(of_job(&job), TEXT);
    }

    #[test]
    fn edits_come_after_the_layout() {
        let bytes = make("raw 01 02 ; two bytes\nappend 03 04\nset 0 FF\ntruncate 3\npad 5");
        assert_eq!(bytes, Ok(vec![0xFF, 2, 3, 0, 0]));
    }

    #[test]
    fn faults_are_told_by_line() {
        assert!(make("budget 1\nr0(x0)").is_err_and(|fault| fault.starts_with("line 2:")));
        assert!(make("arities 2\nr0(x0).").is_err());
        assert!(make("set 500 00").is_err());
        assert!(make("raw 00\narities 1").is_err());
    }
}
