//! The benchmark: what the library's calls cost, beside programs that a reader might use in its
//! place. bench/run builds it and runs it.
//!
//!     bench [--limit SECONDS]                  measures everything and prints the tables
//!     bench --hunt SECONDS SEED WHOSE [JOB]    searches, from random jobs or from a given one,
//!                                              for a job on which ours, clingo or z3 takes long
//!     bench --program PEER JOB                 prints what a peer of the planner is given

#[cfg(buddy)]
mod buddy;
mod calls;
mod clingo;
mod clock;
#[cfg(buddy)]
mod drawing;
mod families;
mod growth;
mod hunt;
mod job;
mod library;
mod peer;
// Only its `read` is used here; the tests may use more of it.
#[allow(dead_code)]
#[path = "../../tests/twin/src/text.rs"]
mod plain;
mod planning;
mod random;
mod reading;
mod spread;
mod stored;
mod table;
mod three;
#[path = "../../include/vjolthar.rs"]
mod vjolthar;
mod words;
#[cfg(z3)]
mod z3;

use families::Family;
use job::Job;
use library::Lent;
use peer::Peer;
use table::section;

const USAGE: &str = "bench/run [--limit SECONDS | --hunt SECONDS SEED WHOSE [JOB] | \
    --program PEER JOB]";
const JOBS: usize = 24;
const LIMIT: u32 = 5;

fn main() {
    let arguments: Vec<String> = std::env::args().skip(1).collect();
    let words: Vec<&str> = arguments.iter().map(String::as_str).collect();
    let mut lent = Lent::new();
    match words[..] {
        [] => measure(LIMIT, &mut lent),
        ["--limit", seconds] => measure(parsed(seconds) as u32, &mut lent),
        ["--hunt", seconds, seed, whose] => search(seconds, seed, whose, None, &mut lent),
        ["--hunt", seconds, seed, whose, path] => {
            search(seconds, seed, whose, Some(&stored::text(path)), &mut lent);
        }
        ["--program", name, path] => print!("{}", (peer(name).program)(&stored::text(path))),
        _ => {
            eprintln!("usage: {USAGE}");
            std::process::exit(2);
        }
    }
}

fn search(seconds: &str, seed: &str, whose: &str, from: Option<&Job>, lent: &mut Lent) {
    let peer = (whose != "ours").then(|| peer(whose));
    let hunt = hunt::Hunt {
        seconds: parsed(seconds),
        seed: parsed(seed),
        peer: peer.as_ref(),
        from,
    };
    hunt::hunt(&hunt, lent);
}

fn parsed(word: &str) -> u64 {
    word.parse().expect("a number of seconds or a seed")
}

fn peer(name: &str) -> Peer {
    peers()
        .into_iter()
        .flatten()
        .find(|peer| peer.name == name)
        .expect("clingo or z3, installed")
}

/// The peers of the planner, none in the place of one that is not installed: clingo, then z3.
fn peers() -> [Option<Peer>; 2] {
    let clingo = clingo::installed().then_some(Peer {
        name: "clingo",
        start_up: Some(clingo::start_up),
        program: clingo::program,
        plan: clingo::plan,
    });
    #[cfg(z3)]
    let z3 = Some(Peer {
        name: "z3",
        start_up: None,
        program: z3::program,
        plan: z3::plan,
    });
    #[cfg(not(z3))]
    let z3 = None;
    [clingo, z3]
}

fn measure(limit: u32, lent: &mut Lent) {
    plan(limit, lent);
    draw(lent);
    section("Reader beside a plain reader", words::READER);
    reading::readings(JOBS, lent);
    section("Growth with the number of columns", words::GROWTH);
    growth::growth(JOBS, lent);
    section("Three jobs of 16 columns", words::THREE);
    three::three(lent);
}

fn all_families() -> [Family; 5] {
    [
        families::thesis(8),
        families::thesis(12),
        families::thesis(16),
        families::dense(),
        families::mixed(),
    ]
}

fn plan(limit: u32, lent: &mut Lent) {
    let peers = peers();
    for (peer, (heading, words)) in peers.iter().zip(words::PLANNER) {
        match peer {
            Some(peer) => {
                section(heading, words);
                planning::families(&all_families(), JOBS, peer, limit, lent);
            }
            None => section(heading, words::NOT_INSTALLED),
        }
    }
    let installed: Vec<Peer> = peers.into_iter().flatten().collect();
    section("Planner on the hardest jobs known", words::HARDEST);
    planning::hardest(&stored::jobs("hard"), &installed, limit, lent);
}

#[cfg(buddy)]
fn draw(lent: &mut Lent) {
    section(words::DIAGRAM_HEADING, words::DIAGRAM);
    let list = |family: &Family| {
        (
            format!("{}, n = {}", family.name, family.n),
            family.jobs(JOBS),
        )
    };
    let mut lists: Vec<_> = all_families().iter().map(list).collect();
    lists.push(("dense.job".to_string(), vec![stored::job("dense")]));
    drawing::drawings(&lists, lent);
}

#[cfg(not(buddy))]
fn draw(_: &mut Lent) {
    section(words::DIAGRAM_HEADING, words::NOT_INSTALLED);
}
