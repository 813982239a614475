//! The calls of the library that are measured by themselves, each with its name.

use crate::job::Job;
use crate::library::Lent;

/// A call on a job and a need, which answers how many needs, nodes, paths or extracts there are.
pub type Call = fn(&mut Lent, &Job, usize) -> usize;

pub const READ: (&str, Call) = ("read", |lent, job, _| lent.read(job.text.as_bytes()).needs);
pub const DIAGRAM: (&str, Call) = ("diagram", |lent, job, chosen| {
    lent.diagram(&job.numbers, chosen)
});
pub const ONE_PATHS: (&str, Call) = ("one_paths", |lent, job, chosen| {
    lent.one_paths(&job.numbers, chosen)
});
pub const PLAN: (&str, Call) = ("plan", |lent, job, _| lent.plan(&job.numbers).1);
