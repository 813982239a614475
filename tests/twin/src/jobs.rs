//! A job as numbers: whether the numbers are fit, and which sets of columns meet a need.

use crate::sets;
use crate::text::{AND, END_OF_NEED, OR};

/// The three parts of a job as they come in; nothing is known of them yet.
#[derive(Clone, Copy, Debug)]
pub struct Numbers<'lent> {
    pub columns: usize,
    pub forbidden: &'lent [u16],
    pub marks: &'lent [u16],
}

/// A job known to be fit, its marks parted into needs without their closing marks.
pub struct Job<'lent> {
    pub columns: usize,
    pub forbidden: &'lent [u16],
    pub needs: Vec<&'lent [u16]>,
}

impl<'lent> Numbers<'lent> {
    /// The job, or nothing if the numbers are unfit.
    pub fn job(self) -> Option<Job<'lent>> {
        if self.columns == 0 || self.columns > 16 || self.forbidden.len() > 32 {
            return None;
        }
        let all = sets::full(self.columns);
        let fit_set = |&set: &u16| set != 0 && sets::contains(all, set);
        if !self.forbidden.iter().all(fit_set) {
            return None;
        }
        let needs = parted(self.marks)?;
        if needs.len() > 8 || !needs.iter().all(|need| fit_need(need, self.columns)) {
            return None;
        }
        Some(Job {
            columns: self.columns,
            forbidden: self.forbidden,
            needs,
        })
    }
}

/// The needs between the closing marks; nothing if the last need isn't closed.
fn parted(marks: &[u16]) -> Option<Vec<&[u16]>> {
    let mut needs: Vec<&[u16]> = marks.split(|&mark| mark == END_OF_NEED).collect();
    // What follows the last closing mark has to be empty and is no need.
    match needs.pop() {
        Some([]) => Some(needs),
        _ => None,
    }
}

fn fit_need(need: &[u16], columns: usize) -> bool {
    let mut operands = 0;
    let mut names = 0;
    for &mark in need {
        if mark == AND || mark == OR {
            if operands < 2 {
                return false;
            }
            operands -= 1;
        } else {
            if usize::from(mark) >= columns {
                return false;
            }
            operands += 1;
            names += 1;
        }
    }
    operands == 1 && names <= 32
}

impl Job<'_> {
    /// Whether the set contains no forbidden set.
    pub fn safe(&self, set: u16) -> bool {
        !self.forbidden.iter().any(|&bad| sets::contains(set, bad))
    }

    /// Whether the need with this index is true of the set.
    pub fn meets(&self, need: usize, set: u16) -> bool {
        value(self.needs[need], |column| u64::from(set >> column & 1)) == 1
    }

    /// Of every set of columns, in the order of their numbers, whether the need is true of it.
    pub fn table(&self, need: usize) -> Vec<bool> {
        let count = 1usize << self.columns;
        let mut table = Vec::with_capacity(count + 64);
        for block in (0..count).step_by(64) {
            let values = value(self.needs[need], |column| column_in_block(column, block));
            table.extend((0..64).map(|set| values >> set & 1 == 1));
        }
        table.truncate(count);
        table
    }
}

/// Of the numbers 0 to 63, which have this bit; from bit 6 on the whole block has it or not.
const LOW_BITS: [u64; 6] = [
    0xaaaa_aaaa_aaaa_aaaa,
    0xcccc_cccc_cccc_cccc,
    0xf0f0_f0f0_f0f0_f0f0,
    0xff00_ff00_ff00_ff00,
    0xffff_0000_ffff_0000,
    0xffff_ffff_0000_0000,
];

/// Whether the column is in each of the 64 sets from `block` on, one bit for each set.
fn column_in_block(column: u16, block: usize) -> u64 {
    match LOW_BITS.get(usize::from(column)) {
        Some(bits) => *bits,
        None if block >> column & 1 == 1 => u64::MAX,
        None => 0,
    }
}

/// The value of a need, worked out for 64 sets at a time because whole tables are asked for.
fn value(need: &[u16], column: impl Fn(u16) -> u64) -> u64 {
    let mut operands = [0u64; 32];
    let mut count = 0;
    for &mark in need {
        if mark == AND || mark == OR {
            count -= 1;
            let (left, right) = (operands[count - 1], operands[count]);
            operands[count - 1] = if mark == AND {
                left & right
            } else {
                left | right
            };
        } else {
            operands[count] = column(mark);
            count += 1;
        }
    }
    operands[0]
}
