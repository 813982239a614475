//! Splits by chance for the judge.

use crate::cases::{JobCase, JudgeCase};
use crate::chance::Chance;
use twin::planner::best_split;

/// A job with the plan itself, with nearly the plan, or with any numbers.
pub fn judged(chance: &mut Chance, job: JobCase) -> JudgeCase {
    let split = match chance.below(6) {
        0 => planned(&job),
        1 | 2 => perturbed(chance, planned(&job)),
        _ => {
            let count = chance.pick(&[0, 1, 2, 3, 8, 9, 200]);
            let wild = chance.one_in(3);
            let sets = std::iter::repeat_with(|| any_set(chance, job.columns, wild));
            sets.take(count).collect()
        }
    };
    JudgeCase { job, split }
}

/// The plan, or no extract at all where there is none.
pub fn planned(job: &JobCase) -> Vec<u16> {
    let fit = job.numbers().job();
    fit.and_then(|fit| best_split(&fit)).unwrap_or_default()
}

fn any_set(chance: &mut Chance, columns: usize, wild: bool) -> u16 {
    match wild {
        true => chance.number() as u16,
        false => 1 << chance.below(columns.clamp(1, 16)),
    }
}

fn perturbed(chance: &mut Chance, mut split: Vec<u16>) -> Vec<u16> {
    for _ in 0..chance.from_to(1, 2) {
        let place = chance.below(split.len() + 1);
        match chance.below(4) {
            0 => split.insert(place, 1 << chance.below(16)),
            1 => split.insert(place, 0),
            2 if place < split.len() => {
                split.remove(place);
            }
            _ if place < split.len() => split[place] ^= 1 << chance.below(16),
            _ => split.reverse(),
        }
    }
    split
}
