//! Three stored jobs of 16 columns, by name: a typical one, one with a large diagram, and one on
//! which the planner takes long.

use crate::calls::{Call, DIAGRAM, ONE_PATHS, PLAN};
use crate::clock;
use crate::job::Job;
use crate::library::Lent;
use crate::spread::{commas, Spread};
use crate::stored;
use crate::table::table;

const REPEATS: usize = 51;
/// A long call is repeated less.
const SECONDS: f64 = 3.0;

pub fn three(lent: &mut Lent) {
    let (typical, dense, hard) = (
        stored::job("typical"),
        stored::job("dense"),
        stored::job("hard"),
    );
    let mut rows = Vec::new();
    for (job, chosen, need) in [
        (&typical, 0, ", need 0"),
        (&typical, typical.numbers.needs, ", no need"),
        (&dense, 0, ", need 0"),
    ] {
        rows.push(row(DIAGRAM, "nodes", job, chosen, need, lent));
        rows.push(row(ONE_PATHS, "paths", job, chosen, need, lent));
    }
    for job in [&typical, &dense, &hard] {
        rows.push(row(PLAN, "extracts", job, 0, "", lent));
    }
    table(&["Call", "Job", "Counted", "Microseconds"], &rows);
}

fn row(
    (name, call): (&str, Call),
    counted: &str,
    job: &Job,
    chosen: usize,
    need: &str,
    lent: &mut Lent,
) -> Vec<String> {
    let count = call(lent, job, chosen);
    let mut times = Vec::new();
    while times.len() < REPEATS && (times.len() < 3 || times.iter().sum::<f64>() < SECONDS * 1e6) {
        times.push(1e6 * clock::timed(|| call(lent, job, chosen)));
    }
    vec![
        name.to_string(),
        format!("{}{need}", job.name),
        format!("{counted}: {}", commas(count as u64)),
        Spread::new(times).shown(),
    ]
}
