//! What is common to the peers of the planner.

use crate::job::{Answer, Job};

/// One run of a peer: the seconds that it took, and its answer; none if it reached the time limit.
pub struct Run {
    pub seconds: f64,
    pub answer: Option<Answer>,
}

/// A program that can be asked for the fewest extracts and then the fewest columns of a job.
pub struct Peer {
    pub name: &'static str,
    /// The seconds that a process of it takes for the least program; none for a peer that runs in
    /// this process.
    pub start_up: Option<fn() -> f64>,
    /// The job in the peer's own language.
    pub program: fn(&Job) -> String,
    /// The program, run under a time limit in seconds.
    pub plan: fn(&str, u32) -> Run,
}
