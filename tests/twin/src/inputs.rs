//! Makes the input of a call from a text or a job: adds lent slices of telling lengths, filled with
//! old contents by chance.

use crate::cases::{DiagramCase, JobCase, Lent, PathsCase, PlanCase, ReadCase, ReportCase};
use crate::chance::Chance;
use crate::ours::vjolthar::{EXTRACTS, FORBIDDEN, MARKS, NAMES, NODES, PAGE, PATHS};
use twin::diagram::{NodeSlices, PathsAnswer};
use twin::text::END_OF_NEED;

/// A slice that is mostly as long as it has to be or a little longer, at times too short.
fn lent<T: Copy + PartialEq>(
    chance: &mut Chance,
    enough: usize,
    old: impl Fn(&mut Chance) -> T,
) -> Lent<T> {
    let length = match chance.below(48) {
        0 => enough.saturating_sub(1),
        1 => chance.pick(&[0, 1, enough / 2, enough.saturating_sub(2)]),
        2..=23 => enough,
        24..=40 => enough + 1,
        _ => enough + chance.below(100),
    };
    Lent::new(length, || old(chance))
}

fn lent_numbers(chance: &mut Chance, enough: usize) -> Lent<u16> {
    lent(chance, enough, |chance| chance.number() as u16)
}

fn lent_bytes(chance: &mut Chance, enough: usize) -> Lent<u8> {
    lent(chance, enough, |chance| chance.number() as u8)
}

pub fn read(chance: &mut Chance, text: Vec<u8>) -> ReadCase {
    ReadCase {
        text,
        forbidden: lent_numbers(chance, FORBIDDEN),
        marks: lent_numbers(chance, MARKS),
        names: lent_bytes(chance, NAMES),
    }
}

pub fn report(chance: &mut Chance, text: Vec<u8>) -> ReportCase {
    ReportCase {
        text,
        page: lent_bytes(chance, PAGE),
    }
}

pub fn diagram(chance: &mut Chance, job: JobCase) -> DiagramCase {
    DiagramCase {
        chosen: chosen(chance, &job),
        job,
        nodes: [NODES; 3].map(|enough| lent_numbers(chance, enough)),
    }
}

/// One of the needs, "no need", or an index past it.
fn chosen(chance: &mut Chance, job: &JobCase) -> usize {
    let needs = job
        .marks
        .iter()
        .filter(|&&mark| mark == END_OF_NEED)
        .count();
    match chance.below(20) {
        0 => needs + 1,
        1 => chance.pick(&[9, 18, 65_536, usize::MAX]),
        _ => chance.below(needs + 1),
    }
}

/// The path slices are as long as there are paths, one less, or some more.
pub fn one_paths(chance: &mut Chance, job: JobCase) -> PathsCase {
    let diagram = diagram(chance, job);
    let paths = drawn(&diagram).paths.into();
    PathsCase {
        diagram,
        ones: lent_numbers(chance, paths),
        zeros: lent_numbers(chance, paths),
    }
}

/// What the twin answers with slices that are long enough for every job.
pub fn drawn(case: &DiagramCase) -> PathsAnswer {
    let [mut column, mut low, mut high] = [vec![0; NODES], vec![0; NODES], vec![0; NODES]];
    let mut nodes = NodeSlices {
        column: &mut column,
        low: &mut low,
        high: &mut high,
    };
    let (mut ones, mut zeros) = (vec![0; PATHS], vec![0; PATHS]);
    let numbers = case.job.numbers();
    twin::diagram::one_paths(numbers, case.chosen, &mut nodes, &mut ones, &mut zeros)
}

pub fn plan(chance: &mut Chance, job: JobCase) -> PlanCase {
    PlanCase {
        job,
        extracts: lent_numbers(chance, EXTRACTS),
    }
}
