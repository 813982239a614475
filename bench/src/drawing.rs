//! The diagram beside BuDDy, on every need of a family's jobs and on "no need".

use crate::buddy;
use crate::clock;
use crate::job::Job;
use crate::library::Lent;
use crate::spread::{median, number, Spread};
use crate::table::{disagreement, table, REPEATED};

const REPEATS: usize = 9;

const HEAD: [&str; 8] = [
    "Jobs",
    "Diagrams",
    "Inner nodes",
    "Ours, microseconds",
    "BuDDy fresh / ours",
    "BuDDy with set-up / ours",
    "BuDDy again / ours",
    REPEATED,
];

/// One diagram, measured: the medians over the repeats.
struct Duel {
    nodes: usize,
    ours: f64,
    fresh: f64,
    whole: f64,
    again: f64,
    /// Highest by lowest of the ratios "fresh" over the repeats.
    factor: f64,
}

/// A row for each list of jobs.
pub fn drawings(lists: &[(String, Vec<Job>)], lent: &mut Lent) {
    let row = |(name, jobs): &(String, Vec<Job>)| {
        let mut duels = Vec::new();
        for job in jobs {
            duels.extend((0..=job.numbers.needs).map(|chosen| duel(job, chosen, lent)));
        }
        let all = |figure: fn(&Duel) -> f64| Spread::new(duels.iter().map(figure));
        vec![
            name.clone(),
            duels.len().to_string(),
            all(|duel| duel.nodes as f64).counts(),
            all(|duel| duel.ours * 1e6).shown(),
            all(|duel| duel.fresh).shown(),
            all(|duel| duel.whole).shown(),
            all(|duel| duel.again).shown(),
            number(all(|duel| duel.factor).median().value),
        ]
    };
    let rows: Vec<_> = lists.iter().map(row).collect();
    table(&HEAD, &rows);
}

fn duel(job: &Job, chosen: usize, lent: &mut Lent) -> Duel {
    let nodes = lent.diagram(&job.numbers, chosen);
    let (mut ours, mut fresh, mut whole, mut again) = (vec![], vec![], vec![], vec![]);
    for _ in 0..REPEATS {
        let seconds = clock::timed(|| lent.diagram(&job.numbers, chosen));
        let built = buddy::built(&job.numbers, chosen);
        agree(job, chosen, nodes, built.nodes);
        ours.push(seconds);
        fresh.push(built.fresh / seconds);
        whole.push(built.whole / seconds);
        again.push(buddy::again(&job.numbers, chosen) / seconds);
    }
    let factor = Spread::new(fresh.clone()).factor();
    Duel {
        nodes,
        ours: median(ours),
        fresh: median(fresh),
        whole: median(whole),
        again: median(again),
        factor,
    }
}

fn agree(job: &Job, chosen: usize, ours: usize, theirs: usize) {
    if ours != theirs {
        let words = format!(
            "BuDDy disagrees on need {chosen} of job {}: {theirs} nodes, ours {ours}",
            job.name
        );
        disagreement(&words, &job.text);
    }
}
