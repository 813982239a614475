//! How the cost of each call grows with the number of columns, the other numbers of the job staying
//! the same.

use crate::calls::{Call, DIAGRAM, ONE_PATHS, PLAN, READ};
use crate::clock;
use crate::families;
use crate::job::Job;
use crate::library::Lent;
use crate::spread::{median, number, Spread};
use crate::table::table;
use crate::vjolthar::COLUMNS;

const REPEATS: usize = 7;
const CALLS: [(&str, Call); 4] = [READ, DIAGRAM, ONE_PATHS, PLAN];

/// A row for each n: the median over the jobs, its spread, and the factor to the row before.
pub fn growth(count: usize, lent: &mut Lent) {
    let sizes: Vec<usize> = (4..=COLUMNS).step_by(2).collect();
    let jobs: Vec<Vec<Job>> = sizes
        .iter()
        .map(|n| families::growing(*n).jobs(count))
        .collect();
    let columns: Vec<Vec<Spread>> = CALLS
        .iter()
        .map(|(_, call)| over_sizes(&jobs, *call, lent))
        .collect();
    let mut rows = Vec::new();
    for (place, n) in sizes.iter().enumerate() {
        let mut row = vec![n.to_string()];
        for column in &columns {
            row.push(column[place].shown());
            let before = place
                .checked_sub(1)
                .map(|before| column[before].median().value);
            let factor = before.map(|before| number(column[place].median().value / before));
            row.push(factor.unwrap_or_default());
        }
        rows.push(row);
    }
    let mut head = vec!["n"];
    for (name, _) in CALLS {
        head.extend([name, "factor"]);
    }
    table(&head, &rows);
}

/// For each n the microseconds over its jobs. A round goes through every n, so that a machine that
/// is slower for a while is so for all of them.
fn over_sizes(jobs: &[Vec<Job>], call: Call, lent: &mut Lent) -> Vec<Spread> {
    let mut times: Vec<Vec<Vec<f64>>> = jobs
        .iter()
        .map(|jobs| vec![Vec::new(); jobs.len()])
        .collect();
    for _ in 0..REPEATS {
        for (jobs, times) in jobs.iter().zip(&mut times) {
            for (job, times) in jobs.iter().zip(times) {
                times.push(1e6 * clock::timed(|| call(lent, job, 0)));
            }
        }
    }
    times
        .into_iter()
        .map(|times| Spread::new(times.into_iter().map(median)))
        .collect()
}
