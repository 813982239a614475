//! The differential run: the library and its twin on the same inputs.
//!
//! `tests/twin/run` builds it and starts it with the files of the stored jobs, `--` and its own
//! arguments. The last line is 'N passed, M failed', where each known case of the twin, the stored
//! jobs and each call that is compared count once, however many inputs were tried.

mod begun;
mod calls;
mod known;
mod stored;

use begun::Begun;
use calls::{Call, CALLS};
use differential::compare::{Input, Outcome};
use std::collections::BTreeMap;
use std::io::Write;
use std::process::ExitCode;
use stored::Stored;

const USUAL_CASES: u64 = 4000;
const USUAL_SEED: u64 = 20_240_601;

const USAGE: &str = "twin: the arguments are [CASES [SEED]], both numbers, CASES not 0, \
    or --only CALL INPUT SEED, or --only stored FILE";

enum Asked<'a> {
    All(Run<'a>),
    /// The input with this number of the call at this place in the list.
    Only {
        place: usize,
        number: u64,
        seed: u64,
    },
    /// The stored job of this file.
    Stored(&'a str),
}

/// The stored jobs, how many inputs, from which seed, and whether every outcome has to be met.
struct Run<'a> {
    stored: &'a [&'a str],
    cases: u64,
    seed: u64,
    usual: bool,
}

/// What was tried and whether all was as expected.
type Results = Vec<(String, bool)>;

fn main() -> ExitCode {
    let arguments: Vec<String> = std::env::args().skip(1).collect();
    let arguments: Vec<&str> = arguments.iter().map(String::as_str).collect();
    let results = match asked(&arguments) {
        Some(Asked::All(run)) => run.all(),
        Some(Asked::Only {
            place,
            number,
            seed,
        }) => {
            let name = CALLS[place].name;
            // This comes first because the making of an input asks the twin, and it may crash.
            println!("twin: {name}, seed {seed}, input {number}");
            let agreed = agree_alone(calls::input(place, number, seed).as_ref());
            vec![(name.to_string(), agreed)]
        }
        Some(Asked::Stored(file)) => vec![(file.to_string(), stored_alone(file))],
        None => {
            eprintln!("{USAGE}");
            return ExitCode::from(2);
        }
    };
    told(&results)
}

fn asked<'a>(arguments: &'a [&str]) -> Option<Asked<'a>> {
    let end = arguments.iter().position(|&argument| argument == "--")?;
    let (stored, arguments) = (&arguments[..end], &arguments[end + 1..]);
    let number = |place: usize, usual: u64| match arguments.get(place) {
        Some(argument) => argument.parse().ok(),
        None => Some(usual),
    };
    match arguments {
        ["--only", "stored", file] => Some(Asked::Stored(file)),
        ["--only", name, input, seed] => Some(Asked::Only {
            place: CALLS.iter().position(|call| call.name == *name)?,
            number: input.parse().ok()?,
            seed: seed.parse().ok()?,
        }),
        [] | [_] | [_, _] => {
            let run = Run {
                stored,
                cases: number(0, USUAL_CASES)?,
                seed: number(1, USUAL_SEED)?,
                usual: arguments.is_empty(),
            };
            (run.cases > 0).then_some(Asked::All(run))
        }
        _ => None,
    }
}

/// Prints what failed and how many passed.
fn told(results: &Results) -> ExitCode {
    let failed: Vec<_> = results.iter().filter(|(_, right)| !right).collect();
    for (name, _) in &failed {
        println!("twin: {name}: NOT AS EXPECTED");
    }
    let passed = results.len() - failed.len();
    println!("{passed} passed, {} failed", failed.len());
    ExitCode::from(u8::from(!failed.is_empty()))
}

/// Compares one input, all of which is printed before either side gets it.
fn agree_alone(input: &dyn Input) -> bool {
    print!("{}", input.account());
    std::io::stdout()
        .flush()
        .expect("the output can be written");
    let compared = input.compare();
    match &compared {
        Ok(outcome) => println!("twin: {}: agreed on {outcome}", input.call()),
        Err(account) => print!("{account}"),
    }
    compared.is_ok()
}

fn stored_alone(file: &str) -> bool {
    println!("twin: {file}");
    match Stored::new(file) {
        Ok(stored) => stored.inputs.iter().all(|input| {
            println!("twin: {}", input.call());
            agree_alone(input.as_ref())
        }),
        Err(account) => {
            print!("{account}");
            false
        }
    }
}

impl Run<'_> {
    /// The known cases, the stored jobs, then all calls.
    fn all(&self) -> Results {
        let begun = Begun::nothing();
        let mut results = known::cases();
        let agreed = stored::agree(self.stored, &begun);
        results.push(("stored jobs".to_string(), agreed));
        for (place, call) in CALLS.iter().enumerate() {
            results.push((call.name.to_string(), self.agree(place, call, &begun)));
        }
        results
    }

    /// Compares one call on all its inputs and prints what was met.
    fn agree(&self, place: usize, call: &Call, begun: &Begun) -> bool {
        let mut met: BTreeMap<Outcome, u64> = BTreeMap::new();
        let inputs = self.cases.saturating_mul(call.inputs);
        for number in 0..inputs {
            let only = format!("--only {} {number} {}", call.name, self.seed);
            begun.note(&only);
            match calls::input(place, number, self.seed).compare() {
                Ok(outcome) => *met.entry(outcome).or_default() += 1,
                Err(account) => {
                    println!("{account}  seed {}, input {number}", self.seed);
                    println!("  again: tests/twin/run {only}");
                    return false;
                }
            }
        }
        println!("twin: {}: {inputs} inputs, {}", call.name, counts(&met));
        let missing = call
            .outcomes
            .iter()
            .find(|outcome| !met.contains_key(outcome));
        if let (true, Some(missing)) = (self.usual, missing) {
            println!("twin: {}: no input led to {missing}", call.name);
            return false;
        }
        true
    }
}

fn counts(met: &BTreeMap<Outcome, u64>) -> String {
    let counts: Vec<String> = met
        .iter()
        .map(|(outcome, count)| format!("{outcome}: {count}"))
        .collect();
    counts.join(", ")
}
