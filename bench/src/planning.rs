//! The planner beside its peers: the families of jobs, and the hardest jobs that are known.
//!
//! Ours, the peer's start-up, the peer, and again: a ratio is made of times that were taken right
//! after one another.

use crate::clock;
use crate::families::Family;
use crate::job::{Answer, Job};
use crate::library::Lent;
use crate::peer::Peer;
use crate::spread::{median, number, Figure, Spread};
use crate::table::{disagreement, progress, table, REPEATED};

const REPEATS: usize = 9;
/// A run of a peer that takes as many seconds is not repeated.
const LONG: f64 = 1.0;

/// Seconds that were taken right after one another. A peer in this process has no start-up.
struct Times {
    ours: f64,
    start_up: f64,
    peer: f64,
}

/// One job, measured.
struct Duel {
    times: Vec<Times>,
    answer: Answer,
    over: bool,
}

impl Duel {
    fn new(job: &Job, peer: &Peer, limit: u32, lent: &mut Lent) -> Duel {
        let program = (peer.program)(job);
        let answer = job.answer(lent);
        let mut duel = Duel {
            times: Vec::new(),
            answer,
            over: false,
        };
        while duel.times.len() < REPEATS {
            let ours = clock::timed(|| lent.plan(&job.numbers));
            let start_up = peer.start_up.map_or(0.0, |start_up| start_up());
            let run = (peer.plan)(&program, limit);
            duel.times.push(Times {
                ours,
                start_up,
                peer: run.seconds,
            });
            match run.answer {
                Some(theirs) => agree(job, peer, answer, theirs),
                None => duel.over = true,
            }
            if duel.over || run.seconds >= LONG {
                break;
            }
        }
        duel
    }

    fn milliseconds(&self) -> Spread {
        self.spread(|times| times.peer * 1e3)
    }

    fn ratio(&self) -> Spread {
        self.spread(|times| times.peer / times.ours)
    }

    fn ratio_less_start_up(&self) -> Spread {
        self.spread(|times| (times.peer - times.start_up).max(0.0) / times.ours)
    }

    fn spread(&self, value: impl Fn(&Times) -> f64) -> Spread {
        let figure = |times| Figure {
            value: value(times),
            over: self.over,
        };
        Spread::of(self.times.iter().map(figure).collect())
    }
}

fn agree(job: &Job, peer: &Peer, ours: Answer, theirs: Answer) {
    if ours != theirs {
        let words = format!(
            "{} disagrees on job {}: {theirs:?}, ours {ours:?}",
            peer.name, job.name
        );
        disagreement(&words, &job.text);
    }
}

/// A row for each family.
pub fn families(families: &[Family], count: usize, peer: &Peer, limit: u32, lent: &mut Lent) {
    let mut rows = Vec::new();
    let mut all = Vec::new();
    for family in families {
        progress(&format!(
            "{} on the jobs of {}, n = {}",
            peer.name, family.name, family.n
        ));
        let jobs = family.jobs(count);
        let duels: Vec<Duel> = jobs
            .iter()
            .map(|job| Duel::new(job, peer, limit, lent))
            .collect();
        rows.push(family_row(family, &duels, peer));
        all.extend(duels);
    }
    say_start_up(&all, peer);
    let mut head = vec![
        "Family",
        "n",
        "Jobs, of these impossible",
        "Ours, microseconds",
    ];
    let (time, whole, less) = heads(peer);
    let over = format!("Over {limit} s");
    head.extend([time.as_str(), &whole]);
    head.extend(less.as_deref());
    head.extend([REPEATED, over.as_str()]);
    table(&head, &rows);
}

/// The heads of the columns of a peer: its time, the ratio, and the ratio less the start-up if it
/// has one.
fn heads(peer: &Peer) -> (String, String, Option<String>) {
    let less = peer
        .start_up
        .map(|_| format!("{} less start-up / ours", peer.name));
    (
        format!("{}, ms", peer.name),
        format!("{} / ours", peer.name),
        less,
    )
}

fn family_row(family: &Family, duels: &[Duel], peer: &Peer) -> Vec<String> {
    let over_jobs = |spread: &dyn Fn(&Duel) -> Spread| {
        let medians = duels.iter().map(|duel| spread(duel).median());
        Spread::of(medians.collect()).shown()
    };
    let impossible = duels
        .iter()
        .filter(|duel| duel.answer == Answer::Impossible)
        .count();
    let mut row = vec![
        family.name.to_string(),
        family.n.to_string(),
        format!("{}, {impossible}", duels.len()),
        over_jobs(&|duel| Spread::new(duel.times.iter().map(|times| times.ours * 1e6))),
        over_jobs(&Duel::milliseconds),
        over_jobs(&Duel::ratio),
    ];
    if peer.start_up.is_some() {
        row.push(over_jobs(&Duel::ratio_less_start_up));
    }
    row.push(repeats(duels));
    row.push(duels.iter().filter(|duel| duel.over).count().to_string());
    row
}

/// How far the repeats of a ratio lie apart. Jobs that were run once say nothing about it.
fn repeats(duels: &[Duel]) -> String {
    let repeated = duels.iter().filter(|duel| duel.times.len() > 1);
    let factors: Vec<f64> = repeated.map(|duel| duel.ratio().factor()).collect();
    if factors.is_empty() {
        return String::new();
    }
    number(median(factors))
}

/// The median of the start-ups that stand beside the runs, in a sentence.
fn say_start_up(duels: &[Duel], peer: &Peer) {
    if peer.start_up.is_some() {
        let all = duels.iter().flat_map(|duel| &duel.times);
        let milliseconds = Spread::new(all.map(|times| times.start_up * 1e3));
        println!(
            "Start-up of {} in this run: {} ms.\n",
            peer.name,
            milliseconds.shown()
        );
    }
}

/// A row for each of the hardest jobs.
pub fn hardest(jobs: &[Job], peers: &[Peer], limit: u32, lent: &mut Lent) {
    let mut head = vec![
        "Job".to_string(),
        "Answer".to_string(),
        "Ours, ms".to_string(),
    ];
    for peer in peers {
        let (time, whole, less) = heads(peer);
        head.extend([time, whole]);
        head.extend(less);
    }
    let mut rows = Vec::new();
    for job in jobs {
        progress(&format!("the hardest jobs: {}", job.name));
        rows.push(hard_row(job, peers, limit, lent));
    }
    let head: Vec<&str> = head.iter().map(String::as_str).collect();
    table(&head, &rows);
}

fn hard_row(job: &Job, peers: &[Peer], limit: u32, lent: &mut Lent) -> Vec<String> {
    let answer = match job.answer(lent) {
        Answer::Impossible => "impossible".to_string(),
        Answer::Split { extracts, columns } => format!("{extracts} extracts, {columns} columns"),
    };
    let times = (0..REPEATS).map(|_| 1e3 * clock::timed(|| lent.plan(&job.numbers)));
    let mut row = vec![job.name.clone(), answer, Spread::new(times).shown()];
    for peer in peers {
        let duel = Duel::new(job, peer, limit, lent);
        row.push(duel.milliseconds().shown());
        row.push(duel.ratio().shown());
        if peer.start_up.is_some() {
            row.push(duel.ratio_less_start_up().shown());
        }
    }
    row
}
