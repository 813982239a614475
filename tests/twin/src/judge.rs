//! The judge of a given split: the first fault, kind before index.

use crate::jobs::{Job, Numbers};
use crate::sets;

#[derive(Debug, Default, PartialEq, Eq)]
pub struct JudgeAnswer {
    pub refusal: u16,
    pub fault: u16,
    pub first: usize,
    pub second: usize,
}

/// Judges a list of extracts.
pub fn judge(numbers: Numbers, split: &[u16]) -> JudgeAnswer {
    match numbers.job() {
        None => JudgeAnswer {
            refusal: 7,
            ..JudgeAnswer::default()
        },
        Some(job) => {
            let (fault, first, second) = first_fault(&job, split).unwrap_or_default();
            JudgeAnswer {
                refusal: 0,
                fault,
                first,
                second,
            }
        }
    }
}

type Fault = Option<(u16, usize, usize)>;

fn first_fault(job: &Job, split: &[u16]) -> Fault {
    stray(job, split)
        .or_else(|| forbidden(job, split))
        .or_else(|| sharing(split))
        .or_else(|| unmet(job, split))
}

fn stray(job: &Job, split: &[u16]) -> Fault {
    let all = sets::full(job.columns);
    let bad = |&extract: &u16| extract == 0 || !sets::contains(all, extract);
    split.iter().position(bad).map(|first| (1, first, 0))
}

fn forbidden(job: &Job, split: &[u16]) -> Fault {
    split.iter().enumerate().find_map(|(first, &extract)| {
        let bad = |&set: &u16| sets::contains(extract, set);
        let second = job.forbidden.iter().position(bad)?;
        Some((2, first, second))
    })
}

fn sharing(split: &[u16]) -> Fault {
    split.iter().enumerate().find_map(|(first, &extract)| {
        let later = &split[first + 1..];
        let offset = later
            .iter()
            .position(|&other| sets::share(extract, other))?;
        Some((3, first, first + 1 + offset))
    })
}

fn unmet(job: &Job, split: &[u16]) -> Fault {
    (0..job.needs.len())
        .find(|&need| !split.iter().any(|&extract| job.meets(need, extract)))
        .map(|first| (4, first, 0))
}
