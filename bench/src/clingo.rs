//! Clingo, that is gringo with clasp, as a peer of the planner. Debian has no library of it, so it
//! runs as a process.
//!
//! The encoding: each column lies in at most one extract; each need is served by one extract, and
//! what it needs there is said by auxiliary atoms, one for each join; extracts without an index in
//! use hold nothing. Two things cut down the search. There are as many possible extracts as needs,
//! and extracts are numbered by the first need that they serve, so that renumbering a split gives
//! no other answer. Only the numbers of extracts and of columns are asked for, not which of the
//! equally good splits is taken.

use std::fmt::Write as _;
use std::io::{Read as _, Write as _};
use std::process::{Command, Stdio};

use crate::clock;
use crate::job::{Answer, Formula, Job};
use crate::peer::Run;

/// The rules that are the same for every job. `true(Need, Part, Extract)` says that a part of a
/// need is true of an extract; part 0 is the whole.
const RULES: &str = "\
extract(0..needs-1).
{ in(C,E) : extract(E) } 1 :- C = 0..columns-1.
1 { serves(V,E) : E = 0..V } 1 :- V = 0..needs-1.
:- serves(V,E), not true(V,0,E).
opens(V,E) :- serves(V,E), not serves(U,E) : U = 0..V-1.
:- opens(V,E), E > 0, not before(V,E-1).
before(V,E) :- serves(U,E), V = U+1..needs-1.
used(E) :- serves(_,E).
:- in(_,E), not used(E).
#minimize { 1@2,E : used(E) }.
#minimize { 1@1,C,E : in(C,E) }.
";

/// The least program: what it takes is the start of the process.
const LEAST: &str = "a.\n";

/// The options that were fastest on these jobs. With clasp's defaults, branch and bound, the
/// hardest ones take it far longer.
const OPTIONS: [&str; 2] = ["--opt-strategy=usc", "--configuration=crafty"];

pub fn installed() -> bool {
    let version = Command::new("clingo")
        .arg("--version")
        .stdout(Stdio::null())
        .stderr(Stdio::null())
        .status();
    matches!(version, Ok(status) if status.success())
}

pub fn program(job: &Job) -> String {
    let needs = job.needs();
    let mut program = format!(
        "#const columns={}.\n#const needs={}.\n{RULES}",
        job.numbers.columns,
        needs.len()
    );
    for set in job.forbidden() {
        let inside: Vec<String> = set.iter().map(|column| format!("in({column},E)")).collect();
        writeln!(program, ":- extract(E), {}.", inside.join(", ")).expect("a string grows");
    }
    for (need, formula) in needs.iter().enumerate() {
        let mut parts = 0;
        part(&mut program, need, formula, &mut parts);
    }
    program
}

/// Writes the rules of a part and of the parts within it, and answers the part's atom.
fn part(program: &mut String, need: usize, formula: &Formula, parts: &mut usize) -> String {
    let own = *parts;
    if let (Formula::Column(column), true) = (formula, own > 0) {
        return format!("in({column},E)");
    }
    *parts += 1;
    let atom = format!("true({need},{own},E)");
    let bodies = match formula {
        Formula::Column(column) => vec![format!("in({column},E)")],
        Formula::Both(inner) => {
            let atoms: Vec<String> = inner
                .iter()
                .map(|one| part(program, need, one, parts))
                .collect();
            vec![atoms.join(", ")]
        }
        Formula::Either(inner) => inner
            .iter()
            .map(|one| part(program, need, one, parts))
            .collect(),
    };
    for body in bodies {
        writeln!(program, "{atom} :- extract(E), {body}.").expect("a string grows");
    }
    atom
}

/// How long the start of the process takes.
pub fn start_up() -> f64 {
    process(LEAST, 5).0
}

pub fn plan(program: &str, limit: u32) -> Run {
    let (seconds, page) = process(program, limit);
    Run {
        seconds,
        answer: answered(&page),
    }
}

/// The seconds and what was written. It is the clock that waits for the child's end.
#[allow(clippy::zombie_processes)]
fn process(program: &str, limit: u32) -> (f64, String) {
    let mut command = Command::new("clingo");
    command
        .args(["--quiet=2,1", &format!("--time-limit={limit}")])
        .args(OPTIONS);
    let child = command
        .stdin(Stdio::piped())
        .stdout(Stdio::piped())
        .stderr(Stdio::null())
        .spawn();
    let mut child = child.expect("clingo starts");
    let mut input = child.stdin.take().expect("clingo is given an input");
    input
        .write_all(program.as_bytes())
        .expect("clingo takes its program");
    drop(input);
    let mut page = String::new();
    let mut output = child.stdout.take().expect("clingo is given an output");
    output
        .read_to_string(&mut page)
        .expect("clingo writes text");
    (clock::ended(child.id()), page)
}

/// None if the time limit came first.
fn answered(page: &str) -> Option<Answer> {
    if page.contains("UNSATISFIABLE") {
        return Some(Answer::Impossible);
    }
    if !page.contains("OPTIMUM FOUND") {
        assert!(
            page.contains("TIME LIMIT"),
            "clingo answers otherwise than known:\n{page}"
        );
        return None;
    }
    let line = page
        .lines()
        .rfind(|line| line.starts_with("Optimization :"))
        .expect("clingo names its optimum");
    let mut numbers = line
        .split_whitespace()
        .skip(2)
        .map(|word| word.parse().expect("a number"));
    let mut next = || numbers.next().expect("two numbers");
    Some(Answer::Split {
        extracts: next(),
        columns: next(),
    })
}
