//! Breaks what makes numbers fit, one clause at a time.

use crate::cases::JobCase;
use crate::chance::Chance;
use twin::text::{AND, END_OF_NEED, OR};

/// Breaks one clause of what makes numbers fit; now and then the numbers stay fit.
pub fn spoil(chance: &mut Chance, job: &mut JobCase) {
    match chance.below(3) {
        0 => spoil_columns(chance, job),
        1 => spoil_sets(chance, job),
        _ => spoil_marks(chance, &mut job.marks),
    }
}

fn spoil_columns(chance: &mut Chance, job: &mut JobCase) {
    job.columns = match chance.below(4) {
        0 => 0,
        1 => chance.from_to(17, 20),
        2 => chance.pick(&[64, 65_536, 65_537, usize::MAX - 1, usize::MAX, 1 << 32]),
        _ => job.columns - 1,
    };
}

fn spoil_sets(chance: &mut Chance, job: &mut JobCase) {
    let place = chance.below(job.forbidden.len() + 1);
    match chance.below(3) {
        0 => job.forbidden.insert(place, 0),
        1 => job.forbidden.insert(place, 1 << chance.below(16)),
        _ => job.forbidden.resize(chance.pick(&[32, 33, 34, 100]), 1),
    }
}

fn spoil_marks(chance: &mut Chance, marks: &mut Vec<u16>) {
    let place = chance.below(marks.len() + 1);
    match chance.below(9) {
        0 => marks.insert(place, END_OF_NEED),
        1 => marks.insert(place, chance.pick(&[AND, OR])),
        2 => marks.insert(place, chance.below(16) as u16),
        3 => marks.insert(place, chance.pick(&[19, 20, 255, 256, 32_768, 65_535])),
        4 => marks.truncate(place),
        5 if place < marks.len() => {
            marks.remove(place);
        }
        6 => many_needs(chance, marks),
        7 => many_names(chance, marks),
        _ => marks.extend((0..chance.from_to(1, 9)).map(|_| chance.below(20) as u16)),
    }
}

/// Eight, nine or more needs.
fn many_needs(chance: &mut Chance, marks: &mut Vec<u16>) {
    let count = chance.pick(&[8, 9, 10, 300]);
    *marks = [0, END_OF_NEED].repeat(count);
}

/// A need with 32, 33 or more column marks: all operands first, or each joined at once.
fn many_names(chance: &mut Chance, marks: &mut Vec<u16>) {
    let names = chance.pick(&[32, 33, 34, 64]);
    if chance.one_in(2) {
        marks.extend(vec![0; names]);
        marks.extend(vec![OR; names - 1]);
    } else {
        marks.push(0);
        marks.extend([0, AND].repeat(names - 1));
    }
    marks.push(END_OF_NEED);
}
