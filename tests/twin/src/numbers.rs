//! Jobs as numbers by chance, of several makes because no single one has all that is hard.

use crate::cases::JobCase;
use crate::chance::Chance;
use crate::unfit::spoil;
use twin::text::{AND, END_OF_NEED, OR};

/// A job as numbers, mostly fit.
pub fn job(chance: &mut Chance) -> JobCase {
    let mut job = fit(chance);
    if chance.one_in(5) {
        spoil(chance, &mut job);
    }
    job
}

/// A job that is fit.
pub fn fit(chance: &mut Chance) -> JobCase {
    match chance.below(5) {
        0 | 1 => clashing(chance),
        2 => crowded(chance),
        _ => mixed(chance),
    }
}

/// A job of any size.
fn mixed(chance: &mut Chance) -> JobCase {
    let columns = match chance.below(3) {
        0 => chance.from_to(1, 16),
        1 => chance.from_to(1, 5),
        _ => chance.pick(&[6, 8, 10, 12, 16]),
    };
    let widest = chance.pick(&[1, 2, 2, 3, 4, columns]).min(columns);
    let sets = chance.count(0, 32);
    let forbidden = repeated(sets, || set(chance, columns, widest));
    let most_names = chance.pick(&[1, 2, 3, 5, 8, 16, 32]);
    let mut marks = Vec::new();
    for _ in 0..chance.count(0, 8) {
        need(chance, columns, most_names, &mut marks);
        marks.push(END_OF_NEED);
    }
    JobCase {
        columns,
        forbidden,
        marks,
    }
}

/// Needs whose main columns are forbidden in pairs, so that several extracts are needed.
fn clashing(chance: &mut Chance) -> JobCase {
    let columns = chance.from_to(2, 16);
    let mut order: Vec<u16> = (0..columns as u16).collect();
    for place in 1..columns {
        order.swap(place, chance.below(place + 1));
    }
    let clashing = chance.from_to(2, columns.min(8));
    let mut forbidden = Vec::new();
    for second in 1..clashing {
        forbidden.extend((0..second).map(|first| 1 << order[first] | 1 << order[second]));
    }
    let more = chance.below(33 - forbidden.len());
    if columns > 4 {
        forbidden.extend(repeated(more, || set(chance, columns, 4) | 1 << order[0]));
    }
    // Bare needs can't avoid the clash, and so lead to as many extracts as clash.
    let bare = chance.one_in(4);
    let mut marks = Vec::new();
    for place in 0..chance.from_to(clashing, 8) {
        marks.push(order[place % clashing]);
        if !bare && chance.one_in(2) {
            need(chance, columns, 3, &mut marks);
            marks.push(chance.pick(&[AND, OR, OR]));
        }
        marks.push(END_OF_NEED);
    }
    JobCase {
        columns,
        forbidden,
        marks,
    }
}

/// Many columns, and forbidden sets and needs that each join early columns with late ones: a
/// diagram has to remember the early ones, so it grows large.
fn crowded(chance: &mut Chance) -> JobCase {
    let columns = chance.pick(&[12, 14, 16, 16, 16]);
    let early = columns - chance.from_to(4, 7);
    let widest = chance.from_to(2, 4);
    let sets = chance.from_to(16, 32);
    let forbidden = repeated(sets, || {
        set(chance, early, widest) | set(chance, columns - early, 3) << early
    });
    let mut marks = Vec::new();
    for _ in 0..chance.below(9) {
        if chance.one_in(2) {
            need(chance, columns, 8, &mut marks);
        } else {
            pairs(chance, columns, early, &mut marks);
        }
        marks.push(END_OF_NEED);
    }
    JobCase {
        columns,
        forbidden,
        marks,
    }
}

/// Up to sixteen pairs of an early and a late column, one of which is enough.
fn pairs(chance: &mut Chance, columns: usize, early: usize, marks: &mut Vec<u16>) {
    for pair in 0..chance.count(1, 16) {
        marks.push(chance.below(early) as u16);
        marks.push(chance.from_to(early, columns - 1) as u16);
        marks.push(AND);
        marks.extend((pair > 0).then_some(OR));
    }
}

fn repeated(count: usize, make: impl FnMut() -> u16) -> Vec<u16> {
    std::iter::repeat_with(make).take(count).collect()
}

/// A set that isn't empty, of at most `widest` columns.
fn set(chance: &mut Chance, columns: usize, widest: usize) -> u16 {
    (0..chance.from_to(1.max(widest / 2), widest))
        .fold(0, |set, _| set | 1 << chance.below(columns))
}

/// A need of at most this many column marks, without its closing mark.
fn need(chance: &mut Chance, columns: usize, most: usize, marks: &mut Vec<u16>) {
    let names = chance.count(1, most);
    let ands = chance.below(5);
    operand(chance, (columns, ands), names, marks);
}

/// A formula of this many column marks, its joins `and` in `ands` of four.
fn operand(
    chance: &mut Chance,
    (columns, ands): (usize, usize),
    names: usize,
    marks: &mut Vec<u16>,
) {
    if names == 1 {
        marks.push(chance.below(columns) as u16);
        return;
    }
    let left = match chance.below(4) {
        0 => 1,
        1 => names - 1,
        _ => chance.from_to(1, names - 1),
    };
    operand(chance, (columns, ands), left, marks);
    operand(chance, (columns, ands), names - left, marks);
    marks.push(if chance.below(4) < ands { AND } else { OR });
}
