//! BuDDy as a peer of the diagram, through the functions of `buddy.c`, in this process. bench/run
//! links them and BuDDy after them, as older linkers want it.

use crate::clock;
use crate::library::Numbers;

extern "C" {
    fn buddy_open(columns: i32, nodes: i32, cache: i32);
    fn buddy_close();
    fn buddy_build(forbidden: *const u16, sets: usize, marks: *const u16, count: usize) -> i32;
    fn buddy_nodes(condition: i32) -> i32;
    fn buddy_release(condition: i32);
}

/// Nodes and cache entries to begin with. These are the sizes that BuDDy's manual gives for small
/// examples: with more, setting up takes longer; with less, the building does.
const SMALL: (i32, i32) = (10_000, 1_000);
/// The sizes for medium examples, so that BuDDy can remember more where setting up is not counted.
const MEDIUM: (i32, i32) = (100_000, 10_000);

/// Two ways of timing the same building, in seconds, and the diagram's number of inner nodes.
pub struct Built {
    /// Nodes and caches are set up, used for this diagram alone and let go, all counted.
    pub whole: f64,
    /// The same, but only the building is counted.
    pub fresh: f64,
    pub nodes: usize,
}

fn build(job: &Numbers, marks: &[u16]) -> i32 {
    // SAFETY: BuDDy is open for as many columns as the job has, and the job and its marks are fit.
    unsafe {
        buddy_build(
            job.forbidden.as_ptr(),
            job.forbidden.len(),
            marks.as_ptr(),
            marks.len(),
        )
    }
}

pub fn built(job: &Numbers, chosen: usize) -> Built {
    let marks = job.need(chosen);
    let start = clock::now();
    // SAFETY: BuDDy is opened once, used and closed.
    unsafe {
        buddy_open(job.columns as i32, SMALL.0, SMALL.1);
        let opened = clock::now();
        let condition = build(job, marks);
        let fresh = clock::now() - opened;
        let counted = clock::now();
        let nodes = buddy_nodes(condition) as usize;
        let counting = clock::now() - counted;
        buddy_close();
        Built {
            whole: clock::now() - start - counting,
            fresh,
            nodes,
        }
    }
}

/// The seconds of a build with the nodes and caches of the builds of the same diagram before it:
/// mostly answers that BuDDy remembers.
pub fn again(job: &Numbers, chosen: usize) -> f64 {
    let marks = job.need(chosen);
    // SAFETY: as in `built`; a condition that is let go leaves its nodes in the table.
    unsafe {
        buddy_open(job.columns as i32, MEDIUM.0, MEDIUM.1);
        let seconds = clock::timed(|| buddy_release(build(job, marks)));
        buddy_close();
        seconds
    }
}
