//! The rows: families of jobs that grow.

use second::text;

use crate::contend::Asked;

pub struct Row {
    pub name: String,
    pub asked: Asked,
    pub job: Vec<u8>,
    /// How the work of a family grows; a way that would be too slow by it isn't
    /// tried.
    pub work: f64,
}

/// Rows of one family, by growing size.
pub type Family = Vec<Row>;

pub fn families() -> Vec<Family> {
    vec![
        [128, 256, 512].map(copying).into(),
        [100, 300, 900].map(roster).into(),
        [2, 3, 4, 5].map(joining).into(),
        [16, 32, 64].map(idle).into(),
        [250, 500, 1000].map(chain).into(),
        [21, 30, 43].map(closure).into(),
        [125, 250, 500].map(merging).into(),
        [1, 2, 3, 4].map(|degree| eight_atoms(0, degree)).into(),
        [1, 2, 3, 4].map(|degree| eight_atoms(8, degree)).into(),
        [1, 2, 4].map(reading).into(),
        [1, 2, 4].map(slowest).into(),
    ]
}

fn row(name: String, asked: Asked, text: &str, work: f64) -> Row {
    let job = text::make(text).unwrap_or_else(|fault| panic!("{name}: {fault}"));
    Row {
        name,
        asked,
        job,
        work,
    }
}

fn run(name: String, text: &str, work: usize) -> Row {
    row(name, Asked::Run, text, work as f64)
}

/// P(x)→Q(x) over n facts.
fn copying(n: usize) -> Row {
    let text = format!("budget {n}\narities 1 1\nr0(x0) -> r1(x0).\nrepeat 1 {n} r0(@).\n");
    run(format!("copying {n} facts"), &text, n * n)
}

/// n entries: two thirds signed players in 50 clubs, one third kits with
/// blanks; a club has one kit.
fn roster(n: usize) -> Row {
    let signed = 2 * n / 3;
    let mut text = "budget 4096\narities 2 2 2\nr0(x0,x1) -> r1(x1,x2).\n\
        r1(x0,x1), r1(x0,x2) -> x1 = x2.\nr1(x0,x1) -> r2(x1,x2).\n"
        .to_string();
    for entry in 0..signed {
        text += &format!("r0({},{}).\n", 1000 + entry, entry % 50);
    }
    for entry in 0..n - signed {
        text += &format!("r1({},#{entry}).\n", entry % 50);
    }
    run(format!("roster of {n}"), &text, n * n)
}

/// A body of so many atoms in a row over 1,000 facts, each joined to two; no
/// match is active.
fn joining(atoms: usize) -> Row {
    let nodes = 1000 / (2 * atoms + 1);
    let body: Vec<String> = (0..atoms)
        .map(|i| format!("r{i}(x{i},x{})", i + 1))
        .collect();
    let mut text = format!("budget 10\narities {}1\n", "2 ".repeat(atoms));
    text += &format!("{} -> r{atoms}(x{atoms}).\n", body.join(", "));
    for relation in 0..atoms {
        text += &edges(relation, nodes, 2);
    }
    text += &format!("repeat 0 {} r{atoms}(@).\n", nodes - 1);
    run(
        format!("join of {atoms} atoms"),
        &text,
        tried(nodes, 2, atoms as u32),
    )
}

/// From each node so many edges, to nodes that lie apart.
fn edges(relation: usize, nodes: usize, degree: usize) -> String {
    let mut text = String::new();
    for node in 0..nodes {
        for edge in 0..degree {
            text += &format!(
                "r{relation}({node},{}).\n",
                (7 * node + 3 * edge + 1) % nodes
            );
        }
    }
    text
}

/// So many rules over 900 facts, none of which is active.
fn idle(rules: usize) -> Row {
    let mut text = "budget 10\narities 2 1\n".to_string();
    for rule in 0..rules {
        text += &format!("r0(x0,{}) -> r1(x0).\n", rule % 9);
    }
    for fact in 0..450 {
        text += &format!("r0({fact},{}).\n", fact % 9);
    }
    text += "repeat 0 449 r1(@).\n";
    run(format!("{rules} idle rules"), &text, rules * 900)
}

/// R(x,y)→∃z R(y,z), given up after n steps.
fn chain(n: usize) -> Row {
    let text = format!("budget {n}\narities 2\nr0(x0,x1) -> r0(x1,x2).\nr0(1,2).\n");
    run(format!("chain of {n} steps"), &text, n * n)
}

/// The transitive closure of a path.
fn closure(path: usize) -> Row {
    let steps = path * (path - 1) / 2;
    let mut text = "budget 4096\narities 2\nr0(x0,x1), r0(x1,x2) -> r0(x0,x2).\n".to_string();
    for node in 0..path {
        text += &format!("r0({node},{}).\n", node + 1);
    }
    run(
        format!("closure of {steps} steps"),
        &text,
        steps * path.pow(3),
    )
}

/// n blanks that an equation makes one.
fn merging(n: usize) -> Row {
    let last = n - 1;
    let text = format!(
        "budget 4096\narities 2\nr0(x0,x1), r0(x0,x2) -> x1 = x2.\nrepeat 0 {last} r0(1,#@).\n"
    );
    run(format!("merging {n} blanks"), &text, n * n)
}

/// A body of eight atoms in a row over 1,000 facts, each joined to `degree`;
/// the head has one variable alone, and no match is active.
fn eight_atoms(variable: usize, degree: usize) -> Row {
    let nodes = 1000 / (degree + 1);
    let body: Vec<String> = (0..8).map(|i| format!("r0(x{i},x{})", i + 1)).collect();
    let mut text = format!(
        "budget 10\narities 2 1\n{} -> r1(x{variable}).\n",
        body.join(", ")
    );
    text += &edges(0, nodes, degree);
    text += &format!("repeat 0 {} r1(@).\n", nodes - 1);
    let name = format!("8 atoms, x{variable}, degree {degree}");
    run(name, &text, tried(nodes, degree, 8))
}

/// The facts that a search over atoms in a row tries: as many as there are
/// paths from each node of so many atoms at the most.
fn tried(nodes: usize, degree: usize, atoms: u32) -> usize {
    let paths: usize = (1..=atoms).map(|length| degree.pow(length)).sum();
    nodes * paths
}

/// The rules and facts of a job of 65,535 bytes, or quarters of them, read to the last value, whose
/// tag is at fault.
fn reading(quarters: usize) -> Row {
    let places = ["x0"; 8].join(",");
    let atoms = vec![format!("r0({places})"); 8].join(", ");
    let mut text = "budget 0\narities 8 1\n".to_string();
    text += &format!("{atoms} -> {atoms}.\n").repeat(16 * quarters);
    text += &format!("repeat 1 {} r0(@,@,@,@,@,@,@,@).\n", 141 * quarters);
    text += "repeat 1 37 r1(@).\n";
    let bytes = text::make(&text).map_or(0, |job| job.len());
    text += &format!("set {} 09\n", bytes - 5);
    run(format!("reading {bytes} bytes"), &text, quarters)
}

/// 16, 32 or 64 rules of eight body and eight head atoms with eight places: special
/// edges in a row, then plain ones, in the order in which ranks climb slowest.
fn slowest(quarters: usize) -> Row {
    let (special, plain) = ([0, 8, 17, 25, 34][quarters], [0, 8, 15, 23, 30][quarters]);
    let mut rules = Vec::new();
    for at in 0..special {
        rules.push(climb(&[(at, 0)], &[(at + 1, 1), (511, 0)]));
    }
    for block in 0..plain {
        let at = special + 15 * block;
        let from: Vec<_> = (0..15).map(|i| (at + i, i)).collect();
        let to: Vec<_> = (0..15).map(|i| (at + i + 1, i)).collect();
        rules.push(climb(&from, &to));
    }
    rules.reverse();
    let text = format!("budget 0\narities{}\n{}", " 8".repeat(64), rules.concat());
    let name = format!("{} slow rules", rules.len());
    row(name, Asked::Verdict, &text, quarters as f64)
}

/// A rule with its variables at these positions.
fn climb(body: &[(usize, usize)], head: &[(usize, usize)]) -> String {
    format!("{} -> {}.\n", atoms_at(body), atoms_at(head))
}

/// Eight atoms that hold each variable at its position 8r + p, and the
/// constant 0 elsewhere.
fn atoms_at(spots: &[(usize, usize)]) -> String {
    let mut relations: Vec<usize> = spots.iter().map(|(position, _)| position / 8).collect();
    relations.sort_unstable();
    relations.dedup();
    let atoms = relations.iter().map(|relation| atom_at(*relation, spots));
    let atoms: Vec<String> = atoms.collect();
    let eight: Vec<String> = atoms.iter().cycle().take(8).cloned().collect();
    eight.join(", ")
}

fn atom_at(relation: usize, spots: &[(usize, usize)]) -> String {
    let term = |place: usize| {
        let spot = spots.iter().find(|(at, _)| *at == 8 * relation + place);
        spot.map_or("0".to_string(), |(_, variable)| format!("x{variable}"))
    };
    let terms: Vec<String> = (0..8).map(term).collect();
    format!("r{relation}({})", terms.join(","))
}
