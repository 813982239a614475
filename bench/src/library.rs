//! The measured library: its C interface, called in this process, with every slice lent once.

use crate::vjolthar::{vjolthar_diagram, vjolthar_one_paths, vjolthar_plan, vjolthar_read};
use crate::vjolthar::{END, EXTRACTS, FORBIDDEN, MARKS, NAMES, NODES, PATHS};

/// The most needs: as many as the most extracts, one for each.
pub const NEEDS: usize = EXTRACTS;
/// The refusal of a job that has no correct split.
pub const NO_CORRECT_SPLIT: u16 = 9;

/// A job as numbers.
#[derive(Clone, PartialEq, Debug)]
pub struct Numbers {
    pub columns: usize,
    pub forbidden: Vec<u16>,
    pub marks: Vec<u16>,
    pub needs: usize,
}

impl Numbers {
    /// The marks of the chosen need without its end; none for "no need".
    pub fn need(&self, chosen: usize) -> &[u16] {
        self.marks
            .split(|mark| *mark == END)
            .nth(chosen)
            .expect("the chosen need or none")
    }
}

/// What the reader answers, all but the slices that it fills.
#[derive(Clone, Copy, Default)]
pub struct Read {
    pub refusal: u16,
    pub place: usize,
    pub columns: usize,
    pub sets: usize,
    pub needs: usize,
    pub marked: usize,
}

/// The slices that the calls are lent.
pub struct Lent {
    pub forbidden: [u16; FORBIDDEN],
    pub marks: [u16; MARKS],
    pub names: [u8; NAMES],
    pub extracts: [u16; EXTRACTS],
    column: Vec<u16>,
    low: Vec<u16>,
    high: Vec<u16>,
    ones: Vec<u16>,
    zeros: Vec<u16>,
}

impl Lent {
    pub fn new() -> Lent {
        Lent {
            forbidden: [0; FORBIDDEN],
            marks: [0; MARKS],
            names: [0; NAMES],
            extracts: [0; EXTRACTS],
            column: vec![0; NODES],
            low: vec![0; NODES],
            high: vec![0; NODES],
            ones: vec![0; PATHS],
            zeros: vec![0; PATHS],
        }
    }

    pub fn read(&mut self, text: &[u8]) -> Read {
        let mut read = Read::default();
        // SAFETY: each pointer goes with the length of its own slice, and the numbers live through
        // the call.
        #[rustfmt::skip]
        let refusal = unsafe {
            vjolthar_read(
                text.as_ptr(), text.len(),
                self.forbidden.as_mut_ptr(), self.forbidden.len(),
                self.marks.as_mut_ptr(), self.marks.len(),
                self.names.as_mut_ptr(), self.names.len(),
                &mut read.place, &mut read.columns,
                &mut read.sets, &mut read.needs, &mut read.marked,
            )
        };
        read.refusal = refusal;
        read
    }

    /// The refusal's number and how many extracts there are.
    pub fn plan(&mut self, job: &Numbers) -> (u16, usize) {
        let mut count = 0;
        // SAFETY: as in `read`.
        #[rustfmt::skip]
        let refusal = unsafe {
            vjolthar_plan(
                job.columns,
                job.forbidden.as_ptr(), job.forbidden.len(),
                job.marks.as_ptr(), job.marks.len(),
                self.extracts.as_mut_ptr(), self.extracts.len(),
                &mut count,
            )
        };
        (refusal, count.into())
    }

    /// The number of inner nodes.
    pub fn diagram(&mut self, job: &Numbers, chosen: usize) -> usize {
        let (mut root, mut count) = (0, 0);
        // SAFETY: as in `read`.
        #[rustfmt::skip]
        let refusal = unsafe {
            vjolthar_diagram(
                job.columns,
                job.forbidden.as_ptr(), job.forbidden.len(),
                job.marks.as_ptr(), job.marks.len(),
                chosen,
                self.column.as_mut_ptr(), self.column.len(),
                self.low.as_mut_ptr(), self.low.len(),
                self.high.as_mut_ptr(), self.high.len(),
                &mut root, &mut count,
            )
        };
        assert_eq!(refusal, 0, "the diagram is refused");
        count.into()
    }

    /// The number of one-paths.
    pub fn one_paths(&mut self, job: &Numbers, chosen: usize) -> usize {
        let (mut root, mut count, mut paths) = (0, 0, 0);
        // SAFETY: as in `read`.
        #[rustfmt::skip]
        let refusal = unsafe {
            vjolthar_one_paths(
                job.columns,
                job.forbidden.as_ptr(), job.forbidden.len(),
                job.marks.as_ptr(), job.marks.len(),
                chosen,
                self.column.as_mut_ptr(), self.column.len(),
                self.low.as_mut_ptr(), self.low.len(),
                self.high.as_mut_ptr(), self.high.len(),
                self.ones.as_mut_ptr(), self.ones.len(),
                self.zeros.as_mut_ptr(), self.zeros.len(),
                &mut root, &mut count, &mut paths,
            )
        };
        assert_eq!(refusal, 0, "the one-paths are refused");
        paths.into()
    }
}
