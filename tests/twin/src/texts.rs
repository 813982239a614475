//! Job texts by chance: right ones, ones with a slip in what they say, and damaged ones.

use crate::cases::JobCase;
use crate::chance::Chance;
use crate::damage::{damage, TELLING};
use crate::drafts::{name, Draft};
use crate::numbers;
use twin::sets::members;
use twin::text::{AND, END_OF_NEED, OR};

/// A job text of any kind.
pub fn text(chance: &mut Chance) -> Vec<u8> {
    let mut text = match chance.below(40) {
        0 => noise(chance),
        1 => longest(chance),
        2 => too_long(chance),
        3..=12 => {
            let job = numbers::fit(chance);
            written(chance, &job)
        }
        _ => {
            let slips = chance.one_in(2);
            Draft::new(chance, slips).text()
        }
    };
    if chance.one_in(3) {
        for _ in 0..chance.count(1, 6) {
            damage(chance, &mut text);
        }
    }
    text
}

/// The text of a job that is given as numbers; its brackets may be nested too deep.
fn written(chance: &mut Chance, job: &JobCase) -> Vec<u8> {
    let mut columns: Vec<Vec<u8>> = Vec::new();
    while columns.len() < job.columns {
        let name = name(chance, false);
        if !columns.contains(&name) {
            columns.push(name);
        }
    }
    let mut text = [b"columns=", &columns.join(&b',')[..], b"\n"].concat();
    for &set in &job.forbidden {
        let names: Vec<Vec<u8>> = members(set).map(|column| columns[column].clone()).collect();
        text.extend([b"forbid=", &names.join(&b'+')[..], b"\n"].concat());
    }
    let needs = job.marks.split_inclusive(|&mark| mark == END_OF_NEED);
    let lines = job.forbidden.len() + needs.clone().count();
    for need in needs {
        text.extend([b"need=", &formula(&columns, need)[..], b"\n"].concat());
    }
    text.extend(format!("end={lines}\n").into_bytes());
    text
}

/// A need in signs, with brackets wherever the order of the marks would be lost without.
fn formula(columns: &[Vec<u8>], need: &[u16]) -> Vec<u8> {
    let mut operands: Vec<(Vec<u8>, u16)> = Vec::new();
    for &mark in &need[..need.len() - 1] {
        if mark < AND {
            operands.push((columns[usize::from(mark)].clone(), mark));
            continue;
        }
        let (mut right, right_mark) = operands.pop().expect("a fit need");
        let (mut left, left_mark) = operands.pop().expect("a fit need");
        if mark == AND && left_mark == OR {
            left = [b"(", &left[..], b")"].concat();
        }
        if right_mark >= AND && (mark == AND || right_mark == OR) {
            right = [b"(", &right[..], b")"].concat();
        }
        let sign = if mark == AND { b'&' } else { b'|' };
        operands.push(([left, right].join(&sign), mark));
    }
    operands.pop().expect("a fit need").0
}

/// Exactly 8,192 bytes that are a right job, made of the longest lines there are.
pub fn longest(chance: &mut Chance) -> Vec<u8> {
    let columns: Vec<Vec<u8>> = (0..16)
        .map(|column| format!("{}{:011}", chance.pick(&['a', 'q']), column).into_bytes())
        .collect();
    let join = chance.pick(b"&|");
    let repeated = |count: usize, join: u8| {
        let names: Vec<_> = (0..count)
            .map(|place| columns[place % 16].clone())
            .collect();
        names.join(&join)
    };
    let lines = [
        [b"columns=", &repeated(16, b',')[..]].concat(),
        vec![[b"forbid=", &repeated(16, b'+')[..]].concat(); 32].join(&b'\n'),
        vec![[b"need=", &repeated(32, b'|')[..]].concat(); 2].join(&b'\n'),
        [b"need=((((", &repeated(18, join)[..], b"))))"].concat(),
        b"end=35".to_vec(),
        Vec::new(),
    ];
    lines.join(&b'\n')
}

/// Over 8,192 bytes, by one or by many.
fn too_long(chance: &mut Chance) -> Vec<u8> {
    let mut text = longest(chance);
    let more = chance.pick(&[1, 1, 2, 100, 20_000]);
    let place = chance.pick(&[0, 100, text.len()]);
    let byte = chance.pick(TELLING);
    text.splice(place..place, vec![byte; more]);
    text
}

fn noise(chance: &mut Chance) -> Vec<u8> {
    let length = chance.pick(&[0, 1, 2, 10, 100, 1000, 8191, 8192, 8193]);
    let telling = chance.one_in(2);
    std::iter::repeat_with(|| match telling {
        true => chance.pick(TELLING),
        false => chance.number() as u8,
    })
    .take(length)
    .collect()
}
