//! The search for hard jobs: hill climbing from a random job, where a changed job is kept if the
//! planner, or a peer, takes longer on it.

use std::time::Instant;

use crate::clock;
use crate::families::need;
use crate::job::{short_names, text, Formula, Job};
use crate::library::{Lent, NEEDS};
use crate::peer::Peer;
use crate::random::Random;
use crate::vjolthar::{COLUMNS, FORBIDDEN};

/// So many random jobs are tried before the best of them is changed.
const STARTS: usize = 100;
/// A change is kept if the time falls to no less than this part: that leads out of small dead ends.
const LOSS: f64 = 0.93;
/// A job that takes as many seconds is hard enough.
const LIMIT: f64 = 20.0;

/// A job that can be changed.
#[derive(Clone)]
struct Draft {
    forbidden: Vec<Vec<usize>>,
    needs: Vec<Formula>,
}

impl Draft {
    /// Some columns must lie apart, and each of them has a need of its own that asks for others
    /// too: so there are several extracts and many ways to fill them. The other needs ask only for
    /// columns that may lie anywhere.
    fn new(random: &mut Random) -> Draft {
        let apart = random.between(3, 7);
        let mut forbidden = Vec::new();
        for first in 0..apart {
            forbidden.extend((0..first).map(|second| vec![first, second]));
        }
        forbidden.extend((0..random.between(1, 4)).map(|_| set(random)));
        let owned = (0..apart).map(|own| vec![Formula::Column(own)]);
        let free = (apart..NEEDS).map(|_| vec![or_list(apart, random)]);
        let starts: Vec<_> = owned.chain(free).collect();
        let needs = starts
            .into_iter()
            .map(|start| long_need(start, apart, random))
            .collect();
        Draft { forbidden, needs }
    }

    fn changed(&self, random: &mut Random) -> Draft {
        let mut draft = self.clone();
        for _ in 0..random.between(1, 3) {
            let forbidden = random.below(draft.forbidden.len());
            let place = random.below(draft.needs.len());
            match random.below(9) {
                0 if draft.forbidden.len() < FORBIDDEN => draft.forbidden.push(set(random)),
                1 if draft.forbidden.len() > 1 => drop(draft.forbidden.remove(forbidden)),
                2 => draft.forbidden[forbidden] = set(random),
                3 => draft.needs[place] = need(random, COLUMNS, 12, 40),
                _ => change(&mut draft.needs[place], random),
            }
        }
        draft
    }

    fn job(&self) -> Option<Job> {
        let names = short_names(COLUMNS);
        Job::from_text("hunted", &text(&names, &self.forbidden, &self.needs))
    }
}

fn set(random: &mut Random) -> Vec<usize> {
    let size = random.between(2, 6);
    random.columns(COLUMNS, size)
}

/// An or-list of columns from this one on.
fn or_list(first: usize, random: &mut Random) -> Formula {
    let count = random.between(3, COLUMNS - first);
    let columns = random.columns(COLUMNS - first, count);
    Formula::Either(
        columns
            .into_iter()
            .map(|column| Formula::Column(first + column))
            .collect(),
    )
}

/// A need that asks for this start and for one or two or-lists of columns from the first one on.
fn long_need(start: Vec<Formula>, first: usize, random: &mut Random) -> Formula {
    let mut parts = start;
    parts.extend((0..random.between(1, 2)).map(|_| or_list(first, random)));
    Formula::Both(parts)
}

/// Changes a need at one place: another column, one part more or one less.
fn change(formula: &mut Formula, random: &mut Random) {
    match formula {
        Formula::Column(column) => *column = random.below(COLUMNS),
        Formula::Both(parts) | Formula::Either(parts) => {
            let part = random.below(parts.len());
            match random.below(6) {
                0 => parts.push(Formula::Column(random.below(COLUMNS))),
                1 if parts.len() > 2 => drop(parts.remove(part)),
                _ => change(&mut parts[part], random),
            }
        }
    }
}

/// What a climb is to do.
pub struct Hunt<'a> {
    pub seconds: u64,
    pub seed: u64,
    /// Whose time counts; ours if there is none.
    pub peer: Option<&'a Peer>,
    /// Where to start; from random jobs if there is none.
    pub from: Option<&'a Job>,
}

/// Climbs and prints the best job, with its seconds on standard error.
pub fn hunt(hunt: &Hunt, lent: &mut Lent) {
    let mut random = Random::new(hunt.seed);
    let start = Instant::now();
    let mut current = hunt.first(&mut random, lent);
    let mut best = current.clone();
    while start.elapsed().as_secs() < hunt.seconds && best.0 < LIMIT {
        let draft = current.1.changed(&mut random);
        let taken = match hunt.cost(&draft, best.0, lent) {
            Some(taken) => taken,
            None => continue,
        };
        if taken > best.0 {
            eprintln!("bench: {taken:.6} s after {} s", start.elapsed().as_secs());
            best = (taken, draft.clone());
        }
        if taken >= current.0 * LOSS {
            current = (taken, draft);
        }
    }
    print!("{}", best.1.job().expect("a job that was read before").text);
}

impl Hunt<'_> {
    /// The job to start from with its seconds: the given one, or the best of some random ones.
    fn first(&self, random: &mut Random, lent: &mut Lent) -> (f64, Draft) {
        let drafts = match self.from {
            Some(job) => vec![Draft {
                forbidden: job.forbidden(),
                needs: job.needs(),
            }],
            None => (0..STARTS).map(|_| Draft::new(random)).collect(),
        };
        let with_seconds = |draft: Draft| Some((self.cost(&draft, 0.0, lent)?, draft));
        let timed = drafts.into_iter().filter_map(with_seconds);
        timed
            .max_by(|one, other| one.0.total_cmp(&other.0))
            .expect("a job that is read")
    }

    /// The seconds of a job; none if it is refused. What seems to take longer than the longest so
    /// far is measured again: a single run may have been disturbed, and the peers' own times vary.
    fn cost(&self, draft: &Draft, longest: f64, lent: &mut Lent) -> Option<f64> {
        let job = draft.job()?;
        let mut once = || match self.peer {
            Some(peer) => (peer.plan)(&(peer.program)(&job), LIMIT as u32).seconds,
            None => {
                let start = clock::now();
                lent.plan(&job.numbers);
                clock::now() - start
            }
        };
        let mut taken = once();
        for _ in 0..3 {
            if taken > longest {
                taken = taken.min(once());
            }
        }
        Some(taken)
    }
}
