//! The planner: an exact search for the one best split.
//!
//! Why the search misses nothing. Take the best split. Give each need to one extract that meets
//! it. An extract without a need could be left out, and there would be fewer extracts; so the needs
//! are parted into as many groups as there are extracts. An extract with a proper part that meets
//! its group could be replaced by that part, which is safe too and leaves fewer columns; so
//! each extract is a least set for its group: safe, meeting it, and no longer meeting it without
//! any one of its columns. The search goes through every parting of the needs and every choice
//! of least sets that share no column, and each of these is a correct split.
//!
//! Why the best remainder may be kept for each state. Two remainders of equal length are compared by
//! their columns, then by the smallest number that only one of them has: the list that has it
//! is the smaller. Extracts added to both, other than all of these, change neither comparison.

use crate::jobs::{Job, Numbers};
use crate::sets;
use std::collections::HashMap;

const MOST_EXTRACTS: usize = 8;

#[derive(Debug, Default, PartialEq, Eq)]
pub struct PlanAnswer {
    pub refusal: u16,
    pub count: u16,
}

/// Plans a split into the first places of the lent slice.
pub fn plan(numbers: Numbers, extracts: &mut [u16]) -> PlanAnswer {
    match planned(numbers, extracts.len()) {
        Err(refusal) => PlanAnswer { refusal, count: 0 },
        Ok(split) => {
            extracts[..split.len()].copy_from_slice(&split);
            PlanAnswer {
                refusal: 0,
                count: split.len() as u16,
            }
        }
    }
}

fn planned(numbers: Numbers, places: usize) -> Result<Vec<u16>, u16> {
    let job = numbers.job().ok_or(7u16)?;
    if places < MOST_EXTRACTS {
        return Err(8);
    }
    best_split(&job).ok_or(9)
}

/// The best split in rising order, or nothing if there is no correct one.
pub fn best_split(job: &Job) -> Option<Vec<u16>> {
    if job.needs.is_empty() {
        return Some(Vec::new());
    }
    let mut search = Search::new(job);
    let all_needs = sets::full(job.needs.len());
    let each_alone = sets::members(all_needs).all(|need| !search.least_sets(1 << need).is_empty());
    if !each_alone {
        return None;
    }
    let best = (1..=job.needs.len()).find_map(|count| {
        search.best(State {
            needs: all_needs,
            used: 0,
            count,
        })
    });
    best.map(|plan| plan.extracts)
}

/// What is still to be done: the needs to meet, the columns already used, and how many extracts.
#[derive(Clone, Copy, PartialEq, Eq, Hash)]
struct State {
    needs: u16,
    used: u16,
    count: usize,
}

/// The order of the fields is the order in which plans of equally many extracts are compared.
#[derive(Clone, PartialEq, Eq, PartialOrd, Ord)]
struct Plan {
    columns: u32,
    extracts: Vec<u16>,
}

struct Search {
    /// For each set of columns the needs it meets; none for a set that isn't safe.
    met: Vec<u16>,
    columns: usize,
    least: HashMap<u16, Vec<u16>>,
    known: HashMap<State, Option<Plan>>,
}

impl Search {
    fn new(job: &Job) -> Search {
        let mut met = vec![0; 1 << job.columns];
        for need in 0..job.needs.len() {
            for (needs, value) in met.iter_mut().zip(job.table(need)) {
                *needs |= u16::from(value) << need;
            }
        }
        for (set, needs) in met.iter_mut().enumerate() {
            if !job.safe(set as u16) {
                *needs = 0;
            }
        }
        Search {
            met,
            columns: job.columns,
            least: HashMap::new(),
            known: HashMap::new(),
        }
    }

    /// The best way to meet the needs of a state with exactly as many extracts as it says.
    fn best(&mut self, state: State) -> Option<Plan> {
        if state.count == 1 {
            return self.best_extract(state);
        }
        if let Some(plan) = self.known.get(&state) {
            return plan.clone();
        }
        // The lowest need is in one of the groups; taking that group next tries each parting once.
        let lowest = 1 << state.needs.trailing_zeros();
        let others = state.needs & !lowest;
        let mut best: Option<Plan> = None;
        for companions in parts(others) {
            let rest = others & !companions;
            if (rest.count_ones() as usize) < state.count - 1 {
                continue;
            }
            for extract in self.free_sets(lowest | companions, state.used) {
                let after = State {
                    needs: rest,
                    used: state.used | extract,
                    count: state.count - 1,
                };
                let plan = self.best(after).map(|rest| rest.with(extract));
                best = best.into_iter().chain(plan).min();
            }
        }
        self.known.insert(state, best.clone());
        best
    }

    fn best_extract(&mut self, state: State) -> Option<Plan> {
        let nothing = Plan {
            columns: 0,
            extracts: Vec::new(),
        };
        let free = self.free_sets(state.needs, state.used);
        free.into_iter().map(|set| nothing.with(set)).min()
    }

    fn free_sets(&mut self, group: u16, used: u16) -> Vec<u16> {
        let all = self.least_sets(group).iter().copied();
        all.filter(|&set| !sets::share(set, used)).collect()
    }

    fn least_sets(&mut self, group: u16) -> &[u16] {
        let met = &self.met;
        let all = sets::full(self.columns);
        self.least.entry(group).or_insert_with(|| {
            let meets = |set: u16| sets::contains(met[usize::from(set)], group);
            let least = |&set: &u16| {
                meets(set) && !sets::members(set).any(|column| meets(set & !(1 << column)))
            };
            (0..=all).filter(least).collect()
        })
    }
}

impl Plan {
    fn with(&self, extract: u16) -> Plan {
        let mut extracts = self.extracts.clone();
        let place = extracts.partition_point(|&other| other < extract);
        extracts.insert(place, extract);
        Plan {
            columns: self.columns + extract.count_ones(),
            extracts,
        }
    }
}

/// Every part of a set, the empty one and the set itself too.
fn parts(set: u16) -> impl Iterator<Item = u16> {
    let mut next = Some(set);
    std::iter::from_fn(move || {
        let part = next?;
        next = (part != 0).then(|| (part - 1) & set);
        Some(part)
    })
}
