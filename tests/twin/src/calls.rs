//! The six calls with the inputs that chance makes for them.

use differential::chance::Chance;
use differential::compare::Input;
use differential::compare::Outcome::{self, Fault, Plan, Refusal, TooManyPaths};
use differential::{inputs, numbers, ours, splits, texts};

/// A call to be compared.
pub struct Call {
    pub name: &'static str,
    /// Inputs for each case: cheap calls get more of them.
    pub inputs: u64,
    make: fn(&mut Chance) -> Box<dyn Input>,
    /// What an input can lead to; all of these have to be met in the usual run.
    pub outcomes: &'static [Outcome],
}

pub const CALLS: [Call; 6] = [
    Call {
        name: "read",
        inputs: 40,
        make: |chance| {
            let text = texts::text(chance);
            Box::new(inputs::read(chance, text))
        },
        outcomes: &[
            Refusal(0),
            Refusal(1),
            Refusal(2),
            Refusal(3),
            Refusal(4),
            Refusal(5),
            Refusal(6),
            Refusal(8),
        ],
    },
    Call {
        name: "diagram",
        inputs: 2,
        make: |chance| {
            let job = numbers::job(chance);
            Box::new(inputs::diagram(chance, job))
        },
        outcomes: &[Refusal(0), Refusal(7), Refusal(8)],
    },
    Call {
        name: "one_paths",
        inputs: 2,
        make: |chance| {
            let job = numbers::job(chance);
            Box::new(inputs::one_paths(chance, job))
        },
        outcomes: &[Refusal(0), Refusal(7), Refusal(8), TooManyPaths],
    },
    Call {
        name: "judge",
        inputs: 4,
        make: |chance| {
            let job = numbers::job(chance);
            Box::new(splits::judged(chance, job))
        },
        outcomes: &[Refusal(7), Fault(0), Fault(1), Fault(2), Fault(3), Fault(4)],
    },
    Call {
        name: "plan",
        inputs: 2,
        make: |chance| {
            let job = numbers::job(chance);
            Box::new(inputs::plan(chance, job))
        },
        outcomes: &[
            Plan(0),
            Plan(1),
            Plan(2),
            Plan(3),
            Plan(4),
            Plan(5),
            Plan(6),
            Plan(7),
            Plan(8),
            Refusal(7),
            Refusal(8),
            Refusal(9),
        ],
    },
    Call {
        name: "report",
        inputs: 4,
        make: |chance| {
            let text = texts::text(chance);
            Box::new(inputs::report(chance, text))
        },
        outcomes: &[
            Refusal(0),
            Refusal(1),
            Refusal(2),
            Refusal(3),
            Refusal(4),
            Refusal(5),
            Refusal(6),
            Refusal(8),
            Refusal(9),
        ],
    },
];

/// The input of the call at this place in the list that has this number.
pub fn input(place: usize, number: u64, seed: u64) -> Box<dyn Input> {
    ours::set_null_turn(number % 2 == 1);
    // The place of the call goes in as well, so that no two calls get the same jobs.
    let case = number
        .wrapping_mul(CALLS.len() as u64)
        .wrapping_add(place as u64);
    (CALLS[place].make)(&mut Chance::new(seed, case))
}
