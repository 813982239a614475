//! Families of jobs, made by a generator with a fixed seed. The first is that of 001, section 3.7,
//! cut to the library's limits.

use crate::job::{joined, short_names, text, Answer, Formula, Job};
use crate::library::{Lent, NEEDS};
use crate::random::Random;
use crate::vjolthar::{COLUMNS, FORBIDDEN};

/// From how many to how many, both included.
type Range = (usize, usize);

/// The shape of the jobs of a family.
pub struct Family {
    pub name: &'static str,
    pub n: usize,
    forbidden: Range,
    /// Columns of a forbidden set.
    together: Range,
    needs: Range,
    /// Column marks of a need.
    marks: Range,
    /// Of a hundred joins, how many are "and".
    both: usize,
    /// Which of the jobs drawn are kept.
    kept: fn(&Job, &mut Lent) -> bool,
    seed: u64,
}

/// 001, section 3.7: 5 to 25 forbidden sets of 2 to 8 columns, 2 to 10 needs of 2 to 4 columns, no
/// impossible jobs. Here 2 to 8 needs, and 8 to 16 columns where the thesis has 10 to 40. It does
/// not say how the columns of a need are joined: here by "and" and "or" in equal parts.
pub fn thesis(n: usize) -> Family {
    Family {
        name: "thesis",
        n,
        forbidden: (5, 25),
        together: (2, 8),
        needs: (2, NEEDS),
        marks: (2, 4),
        both: 50,
        kept: possible,
        seed: 1000 + n as u64,
    }
}

/// As many forbidden sets and needs as there may be, and long needs.
pub fn dense() -> Family {
    Family {
        name: "dense",
        n: COLUMNS,
        forbidden: (FORBIDDEN, FORBIDDEN),
        together: (2, 5),
        needs: (NEEDS, NEEDS),
        marks: (8, 24),
        both: 40,
        kept: possible,
        seed: 2016,
    }
}

/// Small forbidden sets against needs that mostly ask for several columns: each need can be met by
/// itself, but many of the jobs have no correct split.
pub fn mixed() -> Family {
    Family {
        name: "mixed",
        n: COLUMNS,
        forbidden: (20, FORBIDDEN),
        together: (2, 3),
        needs: (6, NEEDS),
        marks: (4, 12),
        both: 60,
        kept: each_alone,
        seed: 3016,
    }
}

/// The same number of rules for every n, so that only the columns grow.
pub fn growing(n: usize) -> Family {
    Family {
        name: "growing",
        n,
        forbidden: (8, 8),
        together: (2, 4),
        needs: (4, 4),
        marks: (2, 4),
        both: 50,
        kept: possible,
        seed: 4000 + n as u64,
    }
}

impl Family {
    pub fn jobs(&self, count: usize) -> Vec<Job> {
        let mut random = Random::new(self.seed);
        let mut lent = Lent::new();
        let mut jobs = Vec::new();
        while jobs.len() < count {
            let name = format!("{}-{}-{}", self.name, self.n, jobs.len());
            let drawn = Job::from_text(&name, &self.draw(&mut random));
            jobs.extend(drawn.filter(|job| (self.kept)(job, &mut lent)));
        }
        jobs
    }

    fn draw(&self, random: &mut Random) -> String {
        let forbidden: Vec<_> = (0..drawn(random, self.forbidden))
            .map(|_| {
                let count = drawn(random, self.together).min(self.n);
                random.columns(self.n, count)
            })
            .collect();
        let needs: Vec<_> = (0..drawn(random, self.needs))
            .map(|_| {
                let count = drawn(random, self.marks);
                need(random, self.n, count, self.both)
            })
            .collect();
        text(&short_names(self.n), &forbidden, &needs)
    }
}

/// 001 leaves out the jobs without a correct split.
fn possible(job: &Job, lent: &mut Lent) -> bool {
    job.answer(lent) != Answer::Impossible
}

/// Each need can be met if it is the only one, so that a job can be impossible only by all of them
/// together.
fn each_alone(job: &Job, lent: &mut Lent) -> bool {
    (0..job.numbers.needs).all(|need| possible(&job.with_need(need), lent))
}

fn drawn(random: &mut Random, range: Range) -> usize {
    random.between(range.0, range.1)
}

/// A need of so many column marks: neighbours are joined at random until one formula is left.
/// Columns come again only where there are more marks than columns.
pub fn need(random: &mut Random, n: usize, count: usize, both: usize) -> Formula {
    let mut columns = random.columns(n, count.min(n));
    while columns.len() < count {
        columns.push(random.below(n));
    }
    let mut parts: Vec<Formula> = columns.into_iter().map(Formula::Column).collect();
    while parts.len() > 1 {
        let place = random.below(parts.len() - 1);
        let second = parts.remove(place + 1);
        let first = parts.remove(place);
        parts.insert(place, joined(random.below(100) < both, first, second));
    }
    parts.remove(0)
}
